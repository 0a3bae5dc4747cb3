//! The folding of forms (docs/RULES.md, 18): the model on its rows, and beside it the original's parser, which passes over
//! an annotation that it does not know by a count of its own, and to any depth.

use oracle::forms::Unfolded::{self, NoForm, TooDeep, Unclosed};
use oracle::lexer::Lexer;
use oracle::nests::random;
use oracle::parser::{self, Parse, ParseBuffer, Parser};
use oracle::texts::Texts;
use oracle::{Fault, Oracle};

const fn fault(number: u8, data: [u32; 2], place: usize) -> Result<usize, Unfolded> {
    Err(Unfolded::Fault(Fault { number, data, place }))
}

const fn unclosed(place: usize) -> Result<usize, Unfolded> {
    Err(Unclosed { place })
}

fn fold(text: &str, allow_confusing: bool, position: usize) -> Result<usize, Unfolded> {
    Oracle::new(text, allow_confusing).fold(position)
}

#[test]
fn rows() {
    let rows: &[(&str, usize, Result<usize, Unfolded>)] = &[
        // the request's
        ("(a (b))", 0, Ok(7)),
        ("(a (b)", 0, unclosed(6)),
        ("(; ) ;)(a)", 0, Err(NoForm)),
        ("(; ) ;)(a)", 7, Ok(10)),
        // an inner form, and what follows a form
        ("(a (b))", 3, Ok(6)),
        ("(a (b)", 3, Ok(6)),
        ("()", 0, Ok(2)),
        ("() ) (; \"", 0, Ok(2)),
        ("()()", 2, Ok(4)),
        ("(()())()", 0, Ok(6)),
        // annotations, strings and comments
        ("(@x)", 0, Ok(4)),
        ("(@x \")\" ;;)\n)", 0, Ok(13)),
        ("(\")\" $\"(\" @\"(\")", 0, Ok(15)),
        ("(\"\\\")\")", 0, Ok(7)),
        ("(;;)()", 0, Err(NoForm)),
        ("((;(;););))", 0, Ok(11)),
        ("((;(;);))", 0, fault(10, [0, 0], 1)),
        ("( ;; )", 0, unclosed(6)),
        ("( ;; )\r)", 0, Ok(8)),
        ("(;)", 0, Err(NoForm)),
        // no opening there
        ("", 0, Err(NoForm)),
        ("()", 2, Err(NoForm)),
        ("\"\"", 0, Err(NoForm)),
        ("()", 1, Err(NoForm)),
        ("(a)", 1, Err(NoForm)),
        ("(@x)", 1, Err(NoForm)),
        (" ()", 0, Err(NoForm)),
        (";;()", 0, Err(NoForm)),
        ("[]", 0, Err(NoForm)),
        // an error there
        ("(;", 0, Err(NoForm)),
        ("é()", 0, Err(NoForm)),
        ("\"\\q\"", 0, Err(NoForm)),
        ("\"(a)", 0, Err(NoForm)),
        ("(;\u{202e};)", 0, Err(NoForm)),
        // an opening in a string or a comment is one where it is asked for
        ("\"()\"", 1, Ok(3)),
        (";;()", 2, Ok(4)),
        ("(;()", 2, Ok(4)),
        // an error behind the opening
        ("(\"\\q\")", 0, fault(13, ['q' as u32, 0], 3)),
        ("(a (;)", 0, fault(10, [0, 0], 3)),
        ("((;", 0, fault(10, [0, 0], 1)),
        ("(a é)", 0, fault(11, ['é' as u32, 0], 3)),
        ("(\"\n\")", 0, fault(12, [10, 0], 2)),
        ("(\"\\4g\")", 0, fault(14, ['g' as u32, 0], 4)),
        ("(\"\\u4\")", 0, fault(16, ['{' as u32, '4' as u32], 4)),
        ("(\")", 0, fault(17, [0, 0], 3)),
        ("(\"\\u{100000000}\")", 0, fault(18, [0, 0], 13)),
        ("(\"\\u{d800}\")", 0, fault(19, [0xd800, 0], 8)),
        ("(\"\\u{4_}\")", 0, fault(20, [0, 0], 6)),
        // the first trouble, and none behind the form
        ("(é \"\\q\"", 0, fault(11, ['é' as u32, 0], 1)),
        ("(\"\\q\" é", 0, fault(13, ['q' as u32, 0], 3)),
        ("(a)é", 0, Ok(3)),
        ("(a)\"", 0, Ok(3)),
    ];
    for &(text, position, expected) in rows {
        for allow_confusing in [false, true] {
            assert_eq!(fold(text, allow_confusing, position), expected, "{text:?} at {position}");
        }
    }
    // confusing characters, refused or not
    for (text, place) in
        [("((;\u{202e};))", 3), ("( ;;\u{202e}\n)", 4), ("(\"\u{202e}\")", 2), ("(a(b(;é\u{202e};)))", 8)]
    {
        assert_eq!(fold(text, false, 0), fault(21, [0x202e, 0], place), "{text:?}");
        assert_eq!(fold(text, true, 0), Ok(text.len()), "{text:?}");
    }
}

/// So many openings, something, and so many closings.
fn nested(openings: usize, inner: &str, closings: usize) -> String {
    format!("{}{inner}{}", "(".repeat(openings), ")".repeat(closings))
}

#[test]
fn levels() {
    let rows = [
        (nested(64, "", 64), 0, Ok(128)),
        (nested(64, "", 63), 0, unclosed(127)),
        (nested(64, "", 0), 0, unclosed(64)),
        (nested(65, "", 0), 0, Err(TooDeep { place: 64 })),
        (nested(65, "", 65), 0, Err(TooDeep { place: 64 })),
        (nested(66, "", 66), 0, Err(TooDeep { place: 64 })),
        (nested(65, "", 65), 1, Ok(129)),
        (nested(66, "", 66), 1, Err(TooDeep { place: 65 })),
        (nested(66, "", 66), 2, Ok(130)),
        (nested(65, "", 64), 1, Ok(129)),
        // no opening there
        (nested(65, "", 65), 65, Err(NoForm)),
        (nested(65, "", 65), 130, Err(NoForm)),
        // comments and strings are no levels, nor are forms beside each other
        (nested(64, "(;(;(;;);)\"(;)\"", 64), 0, fault(10, [0, 0], 64)),
        (nested(64, "(;(;;);)\"((\";;((\n", 64), 0, Ok(145)),
        (nested(63, "()()(a)", 63), 0, Ok(133)),
        (nested(63, "()(())", 63), 0, Err(TooDeep { place: 66 })),
        (nested(64, "a (", 0), 0, Err(TooDeep { place: 66 })),
        (format!("({}{})", nested(63, "", 63), nested(63, "", 63)), 0, Ok(254)),
        (format!("({}{})", nested(63, "", 63), nested(64, "", 64)), 0, Err(TooDeep { place: 190 })),
        // an error behind the level too many is not met, one before it is
        (nested(65, "é", 65), 0, Err(TooDeep { place: 64 })),
        (nested(65, "\"\\q\"", 65), 0, Err(TooDeep { place: 64 })),
        (nested(65, "(;", 0), 0, Err(TooDeep { place: 64 })),
        (nested(64, "(;", 0), 0, fault(10, [0, 0], 64)),
        (nested(64, "é(", 0), 0, fault(11, ['é' as u32, 0], 64)),
        (nested(64, "(é", 0), 0, Err(TooDeep { place: 64 })),
    ];
    for (text, position, expected) in rows {
        assert_eq!(fold(&text, false, position), expected, "{text:?} at {position}");
    }
}

/// Where the original's parser finds a keyword, the first token that it does not pass over.
struct Keyword(usize);

impl Parse<'_> for Keyword {
    fn parse(parser: Parser<'_>) -> parser::Result<Keyword> {
        parser.step(|cursor| match cursor.keyword()? {
            Some((_, rest)) => Ok((Keyword(cursor.cur_span().offset()), rest)),
            None => Err(cursor.error("no keyword")),
        })
    }
}

fn keyword(text: &str, allow_confusing: bool) -> Result<usize, oracle::Error> {
    let mut lexer = Lexer::new(text);
    lexer.allow_confusing_unicode(allow_confusing);
    let buffer = ParseBuffer::new_with_lexer(lexer)?;
    parser::parse::<Keyword>(&buffer).map(|keyword| keyword.0)
}

/// Where the two differ (docs/DIFFERENCES.md): a level too many, and where one stands that is not closed.
#[test]
fn the_original_differs() {
    let deep = format!("(@x{})", nested(64, "", 64));
    assert_eq!(fold(&deep, false, 0), Err(TooDeep { place: 66 }));
    assert_eq!(keyword(&format!("{deep}z"), false).ok(), Some(deep.len()));
    assert_eq!(fold("(@x", false, 0), unclosed(3));
    let error = keyword("(@x", false).unwrap_err();
    assert_eq!((error.to_string().as_str(), error.place()), ("unclosed annotation", 1));
}

/// The original ends an annotation where the model ends its form, and says otherwise that it is not closed, or what error
/// is in it; it has no deepest level.
#[test]
fn the_original_passes_over_annotations() {
    let mut chance = Texts::new(5);
    let (mut ended, mut open, mut faults, mut deep) = (0, 0, 0, 0);
    for _ in 0..20_000 {
        let text = format!("(@x {}", random(&mut chance));
        for allow_confusing in [false, true] {
            match fold(&text, allow_confusing, 0) {
                Ok(end) => {
                    ended += 1;
                    assert_eq!(keyword(&format!("{}z", &text[..end]), allow_confusing).ok(), Some(end), "{text:?}");
                }
                Err(Unclosed { place }) => {
                    open += 1;
                    assert_eq!(place, text.len(), "{text:?}");
                    let error = keyword(&text, allow_confusing).unwrap_err();
                    assert_eq!(error.to_string(), "unclosed annotation", "{text:?}");
                }
                Err(Unfolded::Fault(fault)) => {
                    faults += 1;
                    assert_eq!(Fault::from(keyword(&text, allow_confusing).unwrap_err()), fault, "{text:?}");
                }
                Err(TooDeep { .. }) => deep += 1,
                Err(NoForm) => panic!("{text:?} begins with an opening"),
            }
        }
    }
    for count in [ended, open, faults, deep] {
        assert!(count > 1_000, "{ended} ended, {open} open, {faults} faults, {deep} too deep");
    }
}
