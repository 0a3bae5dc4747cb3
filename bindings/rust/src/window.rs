//! Windows of a text. A call checks the text that it is given; so it is given a window of it, which begins at the position and grows
//! until the answer is decided. All calls of a loop together then take as long as the text is.
//!
//! That a decided answer is the text's own is proved (`slice_parses`, `slice_listing`, `slice_folds`; docs/ARCHITECTURE.md, windows), and
//! so is an answer for a window that goes up to the text's end (`tail_parses`, `tail_listing`, `tail_folds`).

use crate::lexer::{LexError, Lexer};
use crate::refusal::{Error, Refusal};

/// The window with which a call for one token, or for a form's end, begins.
pub const FIRST: usize = 64;

/// The refusal of a text and a position from which nothing is lexed, 1, 3 or 4, as the library gives it for the whole text. What is left
/// begins at a character and is no longer than the library takes, and so is every window of it.
pub fn refused(text: &str, position: usize) -> Option<Error> {
    let refusal = if text.len() > Lexer::MAX_TEXT {
        Refusal::TooLong
    } else if position > text.len() {
        Refusal::PastEnd
    } else if !text.is_char_boundary(position) {
        Refusal::InsideCharacter
    } else {
        return None;
    };
    Some(Error::new(refusal, Some(position)))
}

/// The window of some size at a position that is not refused: up to the next end of a character, or the text's end.
pub fn window(text: &str, position: usize, size: usize) -> &str {
    let mut end = text.len().min(position.saturating_add(size));
    while !text.is_char_boundary(end) {
        end += 1;
    }
    &text[position..end]
}

/// Whether what was found in a window, and the position behind it, are what the text has there too: tokens, or an error other than an open
/// comment, with the position before the window's end.
pub fn is_decided(error: Option<&Error>, position: usize, window: &str) -> bool {
    error.and_then(Error::lex_error) != Some(&LexError::DanglingBlockComment) && position < window.len()
}

/// Whether the form's end that was found in a window, or what keeps it from ending, is what the text has there too: where a byte of the
/// window follows what was read.
pub fn is_form_decided(folded: &Result<usize, Error>, window: &str) -> bool {
    // a `)` is a token whatever follows
    let Err(error) = folded else { return true };
    let read = match error.refusal() {
        // the byte behind a `(` says whether it is an opening
        Refusal::NotThatKind => Some(1),
        Refusal::TooDeep => error.place().map(|place| place + 1),
        // an open comment is read up to the window's end, and one that confuses up to its own
        Refusal::Lex(LexError::DanglingBlockComment | LexError::ConfusingUnicode(_)) => None,
        // of all others the last that is read is the character at the place, of at most four bytes
        Refusal::Lex(_) => error.place().map(|place| place + 4),
        _ => None,
    };
    read.is_some_and(|read| read < window.len())
}

#[cfg(test)]
mod tests {
    use super::*;
    use crate::lexer::{Iter, Token};
    use crate::{Settings, ffi};

    const PIECES: [&str; 25] = [
        "(", ")", "(;", ";)", ";;", "\n", " ", "a", "$", "@", "@x", "0x1_", ".5", "\"", "\\", "\\u{", "4_", "\"\\u{4_",
        "_4", "}", "é", "\u{202e}", "😀", ",", "#",
    ];

    /// Texts of so many pieces, the same in each run.
    fn texts(count: usize, pieces: usize) -> impl Iterator<Item = String> {
        let mut state = 1_u64;
        let mut piece = move || {
            state = state.wrapping_mul(6_364_136_223_846_793_005).wrapping_add(1_442_695_040_888_963_407);
            PIECES[(state >> 33) as usize % PIECES.len()]
        };
        (0..count).map(move |_| (0..pieces).map(|_| piece()).collect())
    }

    /// A lexer with each of the settings.
    fn lexers(text: &str) -> [Lexer<'_>; 4] {
        [(false, false), (true, false), (false, true), (true, true)].map(|(allow, strict)| {
            Lexer::with_settings(text, Settings::new().allow_confusing_unicode(allow).strict_digits(strict))
        })
    }

    /// Every position that can be asked for, and some that cannot.
    fn positions(text: &str) -> impl Iterator<Item = usize> {
        (0..text.len() + 3).chain([usize::MAX - 1, usize::MAX])
    }

    /// What the library says of the whole text.
    fn parsed_whole(lexer: &Lexer, position: usize) -> (Result<Option<Token>, Error>, usize) {
        let [a, b, c, d, e, after] = ffi::parse(lexer.input().as_bytes(), lexer.settings().word(), position);
        (crate::lexer::found([a, b, c, d, e]), after as usize)
    }

    fn annotation_whole(lexer: &Lexer, position: usize) -> Result<Option<Token>, Error> {
        crate::lexer::found(ffi::annotation(lexer.input().as_bytes(), lexer.settings().word(), position))
    }

    fn folded_whole(lexer: &Lexer, position: usize) -> Result<usize, Error> {
        crate::lexer::folded(ffi::fold(lexer.input().as_bytes(), lexer.settings().word(), position))
    }

    fn parsed(lexer: &Lexer, position: usize, size: usize) -> (Result<Option<Token>, Error>, usize) {
        let mut after = position;
        (lexer.parse_by(&mut after, size), after)
    }

    /// Windows that begin with each size give what the library says of the whole text, at every position.
    #[test]
    fn windows_of_one_token_do_not_show() {
        let mut doubles = 0;
        for text in texts(1_500, 8) {
            for lexer in lexers(&text) {
                for position in positions(&text) {
                    let whole = parsed_whole(&lexer, position);
                    doubles += usize::from(whole.0.as_ref().is_err_and(|error| error.refusal().number() == 25));
                    let annotation = annotation_whole(&lexer, position);
                    for size in [1, 2, 3, 5, 8, FIRST] {
                        let shown = || format!("{text:?} at {position} by windows of {size}, {:?}", lexer.settings());
                        assert_eq!(parsed(&lexer, position, size), whole, "parse of {}", shown());
                        assert_eq!(lexer.annotation_by(position, size), annotation, "annotation of {}", shown());
                    }
                }
            }
        }
        assert!(doubles > 0, "no answer is 25");
    }

    /// Texts of parentheses and these pieces, in which forms are nested less, just as and more deep than may be.
    fn nests(count: usize) -> impl Iterator<Item = String> {
        let pieces =
            texts(count, 6).zip(texts(count, 3).skip(1)).zip([0, 1, 2, 60, 62, 63, 64, 65].into_iter().cycle());
        pieces.map(|((inner, behind), depth)| format!("{}{inner}{}{behind}", "(".repeat(depth), ")".repeat(depth)))
    }

    /// The same for the end of a form.
    #[test]
    fn windows_of_a_form_do_not_show() {
        let mut numbers = std::collections::BTreeSet::new();
        for text in texts(3_000, 8).chain(nests(1_000)) {
            for lexer in lexers(&text) {
                for position in positions(&text) {
                    let whole = folded_whole(&lexer, position);
                    numbers.insert(whole.as_ref().map_or_else(|error| error.refusal().number(), |_| 0));
                    for size in [1, 2, 3, 5, 8, FIRST, 65] {
                        let shown = || format!("{text:?} at {position} by windows of {size}, {:?}", lexer.settings());
                        assert_eq!(lexer.fold_by(position, size), whole, "fold of {}", shown());
                    }
                }
            }
        }
        for number in [0, 3, 4, 10, 11, 13, 14, 16, 17, 20, 21, 25, 31, 41, 42] {
            assert!(numbers.contains(&number), "no answer has {number}");
        }
    }

    /// Windows of every size give what one listing of the whole text gives, token by token and error by error, which is what a loop
    /// over the library's single tokens gives.
    #[test]
    fn windows_of_a_listing_do_not_show() {
        for text in texts(3_000, 12) {
            for lexer in lexers(&text) {
                let mut position = 0;
                let mut whole = Vec::new();
                while whole.len() < 64 {
                    let (found, after) = parsed_whole(&lexer, position);
                    position = after;
                    match found.transpose() {
                        Some(item) => whole.push(item),
                        None => break,
                    }
                }
                for size in [1, 2, 3, 4, 5, 6, 7, 8, 1 << 10] {
                    let items: Vec<_> = Iter::by(lexer, 0, size).take(64).collect();
                    assert_eq!(items, whole, "{text:?} by windows of {size}, {:?}", lexer.settings());
                }
            }
        }
    }

    /// 3 and 4 of a listing are those that the library gives for the whole text, and so is 1, of all calls.
    #[test]
    fn refusals_are_the_librarys() {
        let long = " @ é".repeat(Lexer::MAX_TEXT / 5 + 1);
        for text in ["", "é@", "(;", &long] {
            for lexer in lexers(text) {
                for position in (0..6).chain([text.len(), text.len() + 1, usize::MAX]) {
                    let whole = parsed_whole(&lexer, position);
                    if refused(text, position).is_some() {
                        assert_eq!(lexer.iter(position).next(), whole.0.clone().transpose(), "at {position}");
                        assert_eq!(lexer.iter(position).nth(2), whole.0.clone().transpose(), "again at {position}");
                    }
                    assert_eq!(parsed(&lexer, position, FIRST), whole, "at {position}");
                    assert_eq!(lexer.annotation(position), annotation_whole(&lexer, position), "at {position}");
                    assert_eq!(lexer.fold(position), folded_whole(&lexer, position), "at {position}");
                }
            }
        }
    }

    /// How many bytes the library is given for all tokens and errors of a text stays in line with the text and their number.
    #[test]
    fn bytes_given_are_in_line_with_the_text() {
        let nested = format!("{}{}", "(;".repeat(9_000), ";)".repeat(9_000));
        let line = format!(";;{}\n", "é".repeat(20_000));
        let string = format!("\"{}\"", "\\u{1_0}".repeat(5_000));
        let late = format!("{}{}", "a ".repeat(25_000), "\"\\q".repeat(16_000));
        for text in ["(@a b) ", "\"\\q", "(;\u{202e};)@x ", &nested, &line, &string, &late] {
            let text = text.repeat(100_000 / text.len());
            for lexer in lexers(&text) {
                let before = ffi::handed();
                let (mut position, mut calls) = (0, 0);
                while position < text.len() {
                    let start = position;
                    let _ = (lexer.parse(&mut position), lexer.annotation(start));
                    calls += 2;
                    assert!(position > start);
                }
                let given = ffi::handed() - before;
                assert!(given <= 8 * text.len() + 2 * FIRST * calls, "{given} bytes in {calls} calls");
                let before = ffi::handed();
                let items = lexer.iter(0).count();
                let given = ffi::handed() - before;
                assert!(given <= 4 * text.len() + 2 * crate::iter::LEAST * items, "{given} bytes for {items} items");
            }
        }
    }

    /// So it does for the ends of all forms of a text, and for a form that is as long as the text.
    #[test]
    fn bytes_given_are_in_line_with_the_forms() {
        let deep = format!("{}{}", "(a ".repeat(65), ")".repeat(65));
        for text in [
            "() ",
            "(@a b) ",
            "(a (b \"\\)",
            "(a é) ",
            "(func (; ) ;) (param $x i32) (result i32) local.get $x)\n",
            &deep,
        ] {
            let text = text.repeat(100_000 / text.len());
            for lexer in lexers(&text) {
                let before = ffi::handed();
                let (mut position, mut calls, mut forms) = (0, 0, 0);
                while position < text.len() {
                    let folded = lexer.fold(position);
                    forms += folded.as_ref().map_or(0, |end| end - position);
                    calls += 1;
                    position = folded.unwrap_or(position + 1);
                    position += usize::from(!text.is_char_boundary(position));
                }
                let given = ffi::handed() - before;
                // what is refused here is refused within 65 openings
                assert!(given <= 6 * forms + 6 * (FIRST + 4 * 65) * calls, "{given} bytes in {calls} calls");
            }
        }
        let text = format!("({})", "a \"(\" ".repeat(50_000));
        let before = ffi::handed();
        assert_eq!(Lexer::new(&text).fold(0), Ok(text.len()));
        assert!(ffi::handed() - before <= 6 * text.len());
    }
}
