//! Thallusweb's speed beside that of the Rust original: the same texts, one process, all in turn, the best of several.
//! A ratio is our time over the Rust's.

#[rustfmt::skip]
#[allow(clippy::all, dead_code)]
#[path = "../../docs/src/src/lexer.rs"]
mod lexer;
mod texts;

use lexer::Lexer;
use std::cell::RefCell;
use std::hint::black_box;
use std::time::{Duration, Instant};
use texts::{Piece, TEXTS, text};
use thallusweb::lexer::{Lexer as Ours, Listed, Reader, Stop, Token, TokenKind, check_utf8};

mod token {
    pub struct Span {
        pub(crate) offset: usize,
    }
}

#[derive(Debug)]
pub struct Error;

impl Error {
    fn lex(span: token::Span, _content: &str, _kind: lexer::LexError) -> Error {
        black_box(span.offset);
        Error
    }
}

/// The best time of each of several functions, run in turn.
fn best<const N: usize>(rounds: u32, mut functions: [&mut dyn FnMut(); N]) -> [Duration; N] {
    let mut times = [Duration::MAX; N];
    for _ in 0..rounds {
        for (time, function) in times.iter_mut().zip(&mut functions) {
            let began = Instant::now();
            function();
            *time = began.elapsed().min(*time);
        }
    }
    times
}

fn ratio(ours: Duration, theirs: Duration) -> f64 {
    ours.as_secs_f64() / theirs.as_secs_f64()
}

fn speed(size: usize, time: Duration) -> f64 {
    size as f64 / time.as_secs_f64() / 1e6
}

const SIZES: [usize; 3] = [1 << 20, 4 << 20, 16 << 20];

fn main() {
    let mut arguments = std::env::args().skip(1);
    let rounds = arguments
        .next()
        .map_or(9, |word| word.parse().expect("a number of rounds"));
    // of the listings those whose name has the second word, and nothing else; all where there is none
    let only = arguments.next();
    listings(rounds, only.as_deref().unwrap_or(""));
    if only.is_some() {
        return;
    }
    short_file(rounds);
    for (name, piece) in [
        ("ordinary WAT", texts::ordinary as Piece),
        ("varied WAT", texts::varied),
    ] {
        listed_and_read(rounds, name, piece);
    }
    println!("\none read of a token of five bytes    ratio   ns, ours and the Rust's");
    let reads: [(&str, Read); 4] = [
        ("local", |token, text| {
            _ = black_box(token.read(text, Reader::Src))
        }),
        ("12345", |token, text| {
            _ = black_box(token.read(text, Reader::Integer))
        }),
        ("$name", |token, text| _ = black_box(token.name(text))),
        ("\"abc\"", |token, text| {
            _ = black_box(token.read(text, Reader::String))
        }),
    ];
    for (text, read) in reads {
        one_read(rounds, text, read);
    }
    println!("\nan integer's value, as an i64        ratio   ns, ours and the Rust's");
    for (name, text) in [
        ("5 digits", "12345".to_string()),
        ("10 digits", "1234567890".to_string()),
        ("20 digits", "12345678901234567890".to_string()),
        ("1,000 zeros and a 1", format!("{}1", "0".repeat(1_000))),
    ] {
        one_value(rounds, name, &text);
    }
    println!(
        "\none call for each token or error     ratio   MB/s, ours and the Rust's; 4 MiB beside 1"
    );
    for (name, piece) in [
        ("ordinary WAT", texts::ordinary as Piece),
        ("errors", texts::errors),
    ] {
        let texts = [text(1 << 20, piece), text(4 << 20, piece)];
        grows(
            &format!("parse in a loop, {name}"),
            rounds,
            &texts,
            parsed,
            parsed_by_the_original,
        );
        let iter = |text: &str| Ours::new(text).iter(0).count();
        grows(&format!("iter, {name}"), rounds, &texts, iter, |text| {
            Lexer::new(text).iter(0).count()
        });
    }
    println!(
        "\nthe end of a form of 16 MiB          ratio   MB/s, ours, by windows, the listing, the Rust's"
    );
    one_form(rounds, "ordinary WAT", texts::ordinary);
    println!("\nUTF-8 check, 16 MiB                  ratio   MB/s, ours and std's");
    for (name, piece) in TEXTS {
        utf8_check(rounds, name, piece);
    }
}

/// The listing beside `parse` in a loop, and beside the same on bytes, which `from_utf8` checks first.
fn listings(rounds: u32, only: &str) {
    println!(
        "                                     ratio to the Rust   after from_utf8     MB/s at 16 MiB: ours,"
    );
    println!(
        "listing of 1, 4 and 16 MiB              1    4   16        1    4   16     the Rust, after from_utf8"
    );
    for (name, piece) in TEXTS {
        if !name.contains(only) {
            continue;
        }
        let mut list = vec![0u8; 6 * SIZES[2]];
        let tokens = RefCell::new(Vec::with_capacity(SIZES[2]));
        let times = SIZES.map(|size| {
            let text = text(size, piece);
            let mut listed = None;
            let times = best(
                rounds,
                [
                    &mut || {
                        listed = Some(Ours::new(black_box(&text)).list(0, usize::MAX, &mut list))
                    },
                    &mut || all_tokens(black_box(&text), &tokens),
                    &mut || all_tokens(checked(black_box(text.as_bytes())), &tokens),
                ],
            );
            let whole = Listed {
                stop: Stop::End,
                count: tokens.borrow().len(),
                position: text.len(),
            };
            assert_eq!(listed, Some(whole), "{name}");
            (text.len(), times)
        });
        let to = |other: usize| {
            times
                .map(|(_, times)| format!("{:.2}", ratio(times[0], times[other])))
                .join(" ")
        };
        let (size, last) = times[2];
        let [ours, theirs, checked] = last.map(|time| speed(size, time));
        println!(
            "{name:36} {}      {}     {ours:>6.0} {theirs:>6.0} {checked:>6.0}",
            to(1),
            to(2)
        );
    }
}

/// All tokens of a text, by the original.
fn all_tokens(text: &str, tokens: &RefCell<Vec<lexer::Token>>) {
    let mut tokens = tokens.borrow_mut();
    tokens.clear();
    let lexer = Lexer::new(text);
    let mut position = 0;
    while let Some(token) = lexer.parse(&mut position).expect("a text that lexes") {
        tokens.push(token);
    }
}

/// Bytes as a text, which the original must be given.
fn checked(bytes: &[u8]) -> &str {
    std::str::from_utf8(bytes).expect("UTF-8")
}

/// The listing of a file of 100 bytes.
fn short_file(rounds: u32) {
    const CALLS: u32 = 10_000;
    let mut list = [0u8; 6 * texts::RULE.len()];
    let tokens = RefCell::new(Vec::with_capacity(texts::RULE.len()));
    let repeat =
        |call: &mut dyn FnMut(&'static str)| (0..CALLS).for_each(|_| call(black_box(texts::RULE)));
    let times = best(
        rounds.max(9),
        [
            &mut || {
                repeat(&mut |text| _ = black_box(Ours::new(text).list(0, usize::MAX, &mut list)))
            },
            &mut || repeat(&mut |text| all_tokens(text, &tokens)),
            &mut || repeat(&mut |text| all_tokens(checked(text.as_bytes()), &tokens)),
        ],
    );
    let [ours, theirs, checked] = times.map(|time| (time / CALLS).as_nanos());
    println!(
        "{:36} {:.2}                {:.2}           ns: {ours} {theirs} {checked}",
        "a rule file of 100 bytes",
        ratio(times[0], times[1]),
        ratio(times[0], times[2]),
    );
}

/// The listing, and then a read of each word, number, name and string on its own bytes, beside the original's tokens and readers.
fn listed_and_read(rounds: u32, name: &str, piece: Piece) {
    let text = text(4 << 20, piece);
    let mut list = vec![0u8; 6 * text.len()];
    let tokens = RefCell::new(Vec::with_capacity(text.len()));
    let (mut ours_read, mut theirs_read) = (0, 0);
    let [ours, theirs] = best(
        rounds,
        [
            &mut || {
                let count = Ours::new(black_box(&text))
                    .list(0, usize::MAX, &mut list)
                    .count;
                ours_read = read_listed(&text, &list[..6 * count]);
            },
            &mut || {
                all_tokens(black_box(&text), &tokens);
                theirs_read = tokens
                    .borrow()
                    .iter()
                    .filter(|token| read_by_the_original(token, &text))
                    .count();
            },
        ],
    );
    assert_eq!(ours_read, theirs_read, "{name}");
    println!(
        "{:36} {:.2}               {:>7.0} {:>6.0} MB/s, {theirs_read} reads",
        format!("listed and read, {name}"),
        ratio(ours, theirs),
        speed(text.len(), ours),
        speed(text.len(), theirs),
    );
}

/// Reads each token of a list that is a word, a number, a name or a string, each on its own bytes; says how many these are.
fn read_listed(text: &str, list: &[u8]) -> usize {
    let (mut offset, mut reads) = (0, 0);
    for record in list.chunks_exact(6) {
        let len = u32::from_le_bytes([record[0], record[1], record[2], record[3]]);
        let number = u16::from_le_bytes([record[4], record[5]]);
        let at = offset;
        offset += len as usize;
        // comments, white space and parentheses are not read
        if number <= 5 {
            continue;
        }
        let kind = TokenKind::from_number(number.into()).expect("a kind");
        let token = Token {
            kind,
            offset: at,
            len,
        };
        reads += 1;
        match kind {
            TokenKind::Keyword | TokenKind::Reserved => {
                _ = black_box(token.read(text, Reader::Src))
            }
            TokenKind::Id | TokenKind::Annotation => _ = black_box(token.name(text)),
            TokenKind::String => _ = black_box(token.string(text)),
            TokenKind::Integer(kind) => _ = black_box(token.integer(text, kind)),
            TokenKind::Float(kind) => _ = black_box(token.float(text, kind)),
            _ => unreachable!("{kind:?}"),
        }
    }
    reads
}

/// The same of one token by the original.
fn read_by_the_original(token: &lexer::Token, text: &str) -> bool {
    match token.kind {
        lexer::TokenKind::Keyword | lexer::TokenKind::Reserved => _ = black_box(token.src(text)),
        lexer::TokenKind::Id => _ = black_box(token.id(text)),
        lexer::TokenKind::Annotation => _ = black_box(token.annotation(text)),
        lexer::TokenKind::String => _ = black_box(token.string(text)),
        lexer::TokenKind::Integer(kind) => _ = black_box(token.integer(text, kind)),
        lexer::TokenKind::Float(kind) => _ = black_box(token.float(text, kind)),
        _ => return false,
    }
    true
}

/// The token that is the whole of a short text, ours and the original's.
fn one_token(text: &str) -> (Token, lexer::Token) {
    const ONE: &str = "the text is a token";
    let token = Ours::new(text).parse(&mut 0).expect(ONE).expect(ONE);
    let original = Lexer::new(text).parse(&mut 0).expect(ONE).expect(ONE);
    (token, original)
}

/// The times of two ways to do the same with a token, many times over.
fn beside(rounds: u32, name: &str, ours: impl Fn(), theirs: impl Fn()) {
    const READS: u32 = 100_000;
    let [ours, theirs] = best(
        rounds,
        [&mut || (0..READS).for_each(|_| ours()), &mut || {
            (0..READS).for_each(|_| theirs())
        }],
    );
    println!(
        "{name:36} {:>5.2} {:>10} {:>6}",
        ratio(ours, theirs),
        (ours / READS).as_nanos(),
        (theirs / READS).as_nanos()
    );
}

/// Reads a token of a text.
type Read = fn(&Token, &str);

/// The time of one read of a token.
fn one_read(rounds: u32, text: &str, read: Read) {
    let (token, original) = one_token(text);
    beside(
        rounds,
        &format!("one read, {text}"),
        || read(&token, black_box(text)),
        || _ = read_by_the_original(&original, black_box(text)),
    );
}

/// The time of an integer's value.
fn one_value(rounds: u32, name: &str, text: &str) {
    let (token, original) = one_token(text);
    assert_eq!(
        token.i64(text).ok(),
        value_by_the_original(&original, text),
        "{name}"
    );
    beside(
        rounds,
        name,
        || _ = black_box(token.i64(black_box(text))),
        || _ = black_box(value_by_the_original(&original, black_box(text))),
    );
}

/// As the original's parser reads it (docs/src/src/token.rs, `integers!`).
fn value_by_the_original(token: &lexer::Token, text: &str) -> Option<i64> {
    let lexer::TokenKind::Integer(kind) = token.kind else {
        return None;
    };
    let integer = token.integer(text, kind);
    let (s, base) = integer.val();
    i64::from_str_radix(s, base)
        .or_else(|_| u64::from_str_radix(s, base).map(|i| i as i64))
        .ok()
}

fn parsed(text: &str) -> usize {
    let (lexer, mut position, mut items) = (Ours::new(text), 0, 0);
    while !matches!(lexer.parse(&mut position), Ok(None)) {
        items += 1;
    }
    items
}

fn parsed_by_the_original(text: &str) -> usize {
    let (lexer, mut position, mut items) = (Lexer::new(text), 0, 0);
    while !matches!(lexer.parse(&mut position), Ok(None)) {
        items += 1;
    }
    items
}

/// Times a count of items on a text and on one of four times its length, and says how much longer the second takes us.
fn grows(
    name: &str,
    rounds: u32,
    texts: &[String; 2],
    ours: impl Fn(&str) -> usize,
    original: impl Fn(&str) -> usize,
) {
    let times = texts.each_ref().map(|text| {
        assert_eq!(ours(text), original(text), "{name}");
        best(
            rounds,
            [&mut || _ = black_box(ours(black_box(text))), &mut || {
                _ = black_box(original(black_box(text)))
            }],
        )
    });
    let [ours, theirs] = times[1];
    println!(
        "{name:36} {:>5.2} {:>10.0} {:>6.0}   {:.1} times as long",
        ratio(ours, theirs),
        speed(texts[1].len(), ours),
        speed(texts[1].len(), theirs),
        ratio(times[1][0], times[0][0])
    );
}

/// The call itself, which the bindings make for one window after the other.
fn folded(text: &str) -> usize {
    // SAFETY: as include/thallusweb.h declares it.
    unsafe extern "C" {
        fn thallusweb_fold(
            text: *const u8,
            len: usize,
            settings: u32,
            position: usize,
            out: *mut u64,
        );
    }
    let mut out = [0; 5];
    // SAFETY: `text` goes with its length, and `out` has the five words that are written.
    unsafe { thallusweb_fold(text.as_ptr(), text.len(), 0, 0, out.as_mut_ptr()) };
    assert_eq!(out[0], 1, "a form");
    out[1] as usize
}

/// As the original's parser passes over an annotation (docs/src/src/parser.rs, `skip_annotation`).
fn folded_by_the_original(text: &str) -> usize {
    let (lexer, mut position, mut open) = (Lexer::new(text), 0, 0);
    while let Some(token) = lexer.parse(&mut position).expect("a text that lexes") {
        match token.kind {
            lexer::TokenKind::LParen => open += 1,
            lexer::TokenKind::RParen => open -= 1,
            _ => {}
        }
        if open == 0 {
            break;
        }
    }
    position
}

/// The end of a form that is the whole text: by one call, by the bindings' windows, and beside a listing of the text.
fn one_form(rounds: u32, name: &str, piece: Piece) {
    let text = format!("({})", text(SIZES[2] - 2, piece));
    let mut list = vec![0u8; 6 * text.len()];
    for end in [
        folded(&text),
        Ours::new(&text).fold(0).expect("a form"),
        folded_by_the_original(&text),
    ] {
        assert_eq!(end, text.len(), "{name}");
    }
    let times = best(
        rounds,
        [
            &mut || _ = black_box(folded(black_box(&text))),
            &mut || _ = black_box(Ours::new(black_box(&text)).fold(0)),
            &mut || _ = black_box(Ours::new(black_box(&text)).list(0, usize::MAX, &mut list)),
            &mut || _ = black_box(folded_by_the_original(black_box(&text))),
        ],
    );
    let [ours, windows, listing, theirs] = times.map(|time| speed(text.len(), time));
    println!(
        "{name:36} {:>5.2} {ours:>10.0} {windows:>6.0} {listing:>6.0} {theirs:>6.0}",
        ratio(times[0], times[3])
    );
}

/// The check of a text beside `std::str::from_utf8`.
fn utf8_check(rounds: u32, name: &str, piece: Piece) {
    let text = text(SIZES[2], piece);
    let [ours, theirs] = best(
        rounds,
        [
            &mut || _ = black_box(check_utf8(black_box(text.as_bytes()))),
            &mut || _ = black_box(std::str::from_utf8(black_box(text.as_bytes()))),
        ],
    );
    assert_eq!(check_utf8(text.as_bytes()), Ok(()));
    println!(
        "{name:36} {:>5.2} {:>10.0} {:>6.0}",
        ratio(ours, theirs),
        speed(text.len(), ours),
        speed(text.len(), theirs)
    );
}
