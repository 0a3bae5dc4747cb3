//! Strict digits (docs/RULES.md, 5): the model on its rows, beside the setting off; beside a reading of the digits one by one; and on
//! random texts.

use Said::{Fault, Token};
use oracle::forms::Unfolded;
use oracle::listing::{Listing, RECORD, Stop};
use oracle::texts::{Texts, every};
use oracle::{Answer, Oracle, Settings};
use std::collections::BTreeMap;

const STRING: u16 = 6;
const ID: u16 = 7;
const KEYWORD: u16 = 8;
const ANNOTATION: u16 = 9;
const RESERVED: u16 = 10;

/// An answer in numbers: a token's kind and length; an error's number, data and place.
#[derive(Clone, Copy, Debug, PartialEq)]
enum Said {
    Token(u16, u32),
    Fault(u8, [u32; 2], usize),
}

const NONE: [u32; 2] = [0, 0];

const fn fault(number: u8, place: usize) -> oracle::Fault {
    oracle::Fault { number, data: NONE, place }
}

fn oracle(text: &str, allow_confusing: bool, strict_digits: bool) -> Oracle<'_> {
    Oracle::with_settings(text, Settings { allow_confusing, strict_digits })
}

/// What is said at a position, and the position afterwards.
fn said(oracle: &Oracle, position: usize) -> (Said, usize) {
    let (answer, after) = oracle.parse(position);
    let said = match answer {
        Answer::End => panic!("the end of {:?} at {position}", oracle.text()),
        Answer::Token(token) => Token(token.kind(), token.len()),
        Answer::Fault(fault) => Fault(fault.number, fault.data, fault.place),
    };
    (said, after)
}

/// A text and a position; the answer and the position afterwards with the setting off; and where 25 stands with it on, past which the
/// position then is, or nothing where the answer stays.
type Row<'t> = (&'t str, usize, Said, usize, Option<usize>);

fn check(rows: &[Row], flags: &[bool]) {
    for &(text, position, answer, after, double) in rows {
        for &allow_confusing in flags {
            let asked = format!("{text:?} at {position}, confusing characters allowed: {allow_confusing}");
            assert_eq!(said(&oracle(text, allow_confusing, false), position), (answer, after), "{asked}");
            let strict = double.map_or((answer, after), |place| (Fault(25, NONE, place), place + 1));
            assert_eq!(said(&oracle(text, allow_confusing, true), position), strict, "{asked}, strictly");
        }
    }
}

#[test]
fn both_settings() {
    let rows: &[Row] = &[
        // the request's
        (r#""\u{1__0}""#, 0, Token(STRING, 10), 10, Some(6)),
        (r#""\u{1__}""#, 0, Fault(20, NONE, 6), 7, Some(6)),
        (r#""\u{1___0}""#, 0, Token(STRING, 11), 11, Some(6)),
        (r#""\u{_1}""#, 0, Fault(14, ['_' as u32, 0], 4), 5, None),
        (r#""\u{1_}""#, 0, Fault(20, NONE, 5), 6, None),
        (r#""\u{d8__00}""#, 0, Fault(19, [0xd800, 0], 9), 10, Some(7)),
        (r#""\u{fffffffff__"#, 0, Fault(18, NONE, 12), 13, None),
        (r#""\u{1__fffffffff}""#, 0, Fault(18, NONE, 14), 15, Some(6)),
        (r#""\u{1__"#, 0, Fault(20, NONE, 6), 7, Some(6)),
        (r#""\u{1_"#, 0, Fault(20, NONE, 5), 6, None),
        // single ones, as many as there are, and none
        (r#""\u{1_0}""#, 0, Token(STRING, 9), 9, None),
        (r#""\u{0_0_1_0}""#, 0, Token(STRING, 13), 13, None),
        (r#""\u{10}""#, 0, Token(STRING, 8), 8, None),
        (r#""\u{A__F}""#, 0, Token(STRING, 10), 10, Some(6)),
        // the first pair, in the first escape that has one
        (r#""\u{1__0__0}""#, 0, Token(STRING, 13), 13, Some(6)),
        (r#""\u{1_0__0}""#, 0, Token(STRING, 12), 12, Some(8)),
        (r#""\u{1_0}\u{1__0}""#, 0, Token(STRING, 17), 17, Some(13)),
        (r#""\u{1__0}\u{1__0}""#, 0, Token(STRING, 18), 18, Some(6)),
        // with 18 in reading order
        (r#""\u{ffffffff__f}""#, 0, Fault(18, NONE, 14), 15, Some(13)),
        (r#""\u{ffffffff_f__}""#, 0, Fault(18, NONE, 13), 14, None),
        (r#""\u{f__fffffff_f}""#, 0, Fault(18, NONE, 15), 16, Some(6)),
        // before 20, 19, 16 and 17 of the same number
        (r#""\u{110000__}""#, 0, Fault(20, NONE, 11), 12, Some(11)),
        (r#""\u{1__g}""#, 0, Fault(20, NONE, 6), 7, Some(6)),
        (r#""\u{1__0g}""#, 0, Fault(16, ['}' as u32, 'g' as u32], 8), 9, Some(6)),
        (r#""\u{1__0"#, 0, Fault(17, NONE, 8), 8, Some(6)),
        (r#""\u{1_g}""#, 0, Fault(20, NONE, 5), 6, None),
        (r#""\u{d800_}""#, 0, Fault(20, NONE, 8), 9, None),
        (r#""\u{d8_00}""#, 0, Fault(19, [0xd800, 0], 8), 9, None),
        // no digit is before it
        (r#""\u{__1}""#, 0, Fault(14, ['_' as u32, 0], 4), 5, None),
        (r#""\u{}__""#, 0, Fault(14, ['}' as u32, 0], 4), 5, None),
        (r#""\u1__0}""#, 0, Fault(16, ['{' as u32, '1' as u32], 3), 4, None),
        // another error before it, or behind
        (r#""\q\u{1__0}""#, 0, Fault(13, ['q' as u32, 0], 2), 3, None),
        (r#""\u{1__0}\q""#, 0, Fault(13, ['q' as u32, 0], 10), 11, Some(6)),
        (r#""\u{1__0}"#, 0, Fault(17, NONE, 9), 9, Some(6)),
        (r#""\u{1__0}""a"#, 0, Fault(17, NONE, 12), 12, Some(6)),
        // underscores that are no digits' of an escape
        (r#""__""#, 0, Token(STRING, 4), 4, None),
        (r#""\u{10}__""#, 0, Token(STRING, 10), 10, None),
        (r#""\10__""#, 0, Token(STRING, 7), 7, None),
        (r#""u{1__0}""#, 0, Token(STRING, 9), 9, None),
        (r#""\75{1__0}""#, 0, Token(STRING, 11), 11, None),
        ("1__0", 0, Token(RESERVED, 4), 4, None),
        ("nan:0x1__0", 0, Token(KEYWORD, 10), 10, None),
        ("$__", 0, Token(ID, 3), 3, None),
        // a backslash that is escaped, and an escaped quote
        (r#""\\u{1__0}""#, 0, Token(STRING, 11), 11, None),
        (r#""\\\u{1__0}""#, 0, Token(STRING, 12), 12, Some(8)),
        (r#""\\\\u{1__0}""#, 0, Token(STRING, 13), 13, None),
        (r#""\"\u{1__0}""#, 0, Token(STRING, 12), 12, Some(8)),
        (r#""\5c\u{1__0}""#, 0, Token(STRING, 13), 13, Some(9)),
        // outside a string a backslash is an idchar, and no escape
        (r"\u{1__0}", 0, Token(RESERVED, 2), 2, None),
        (r#""a"\u{1__0}"#, 0, Token(RESERVED, 5), 5, None),
        (r#"\"\u{1__0}""#, 0, Token(RESERVED, 11), 11, Some(7)),
        // names, annotations and other runs
        (r#"$"\u{1__0}""#, 0, Token(ID, 11), 11, Some(7)),
        (r#"@"\u{1__0}""#, 0, Token(ANNOTATION, 11), 11, Some(7)),
        (r#"a"\u{1__0}""#, 0, Token(RESERVED, 11), 11, Some(7)),
        (r#"a"b"c"\u{1__0}""#, 0, Token(RESERVED, 15), 15, Some(11)),
        (r#""a""\u{1__0}"b"#, 0, Token(RESERVED, 14), 14, Some(9)),
        // comments have no escapes
        (r#";;"\u{1__0}""#, 0, Token(1, 12), 12, None),
        (r#"(;"\u{1__0}";)"#, 0, Token(2, 14), 14, None),
        // what stands before a position and behind the token is not looked at
        (r#"é "\u{1__0}""#, 3, Token(STRING, 10), 13, Some(9)),
        (r#""\u{1__0}""#, 1, Token(RESERVED, 2), 3, None),
        (r#""\u{1__0}""#, 4, Token(RESERVED, 4), 8, None),
        (r#"a "\u{1__0}""#, 0, Token(KEYWORD, 1), 1, None),
    ];
    check(rows, &[false, true]);
    // a confusing character, before it and behind
    let before = "\"\u{202e}\\u{1__0}\"";
    let behind = "\"\\u{1__0}\u{202e}\"";
    let confusing = |place| Fault(21, [0x202e, 0], place);
    check(&[(before, 0, confusing(1), 4, None), (behind, 0, confusing(9), 12, Some(6))], &[false]);
    check(&[(before, 0, Token(STRING, 13), 13, Some(9)), (behind, 0, Token(STRING, 13), 13, Some(6))], &[true]);
}

/// A text and a position; what is answered with the setting off, and on.
type Both<'t, Answer> = (&'t str, usize, [Answer; 2]);

/// An annotation's kind and length.
type Annotation = Result<Option<(u16, u32)>, oracle::Fault>;

#[test]
fn annotations() {
    let annotation = |text: &str, strict, position| {
        let found = oracle(text, false, strict).annotation(position);
        found.map(|token| token.map(|token| (token.kind(), token.len())))
    };
    let rows: &[Both<Annotation>] = &[
        (r#"@"\u{1__0}""#, 0, [Ok(Some((ANNOTATION, 11))), Err(fault(25, 7))]),
        (r#"(@"\u{1__0}")"#, 1, [Ok(Some((ANNOTATION, 11))), Err(fault(25, 8))]),
        // another token, and an error with the setting off too
        (r#"@a"\u{1__0}""#, 0, [Ok(None), Err(fault(25, 8))]),
        (r#"@"\u{1__}""#, 0, [Err(fault(20, 7)), Err(fault(25, 7))]),
        // no pair, no `@`, and past the end
        (r#"@"\u{1_0}""#, 0, [Ok(Some((ANNOTATION, 10))); 2]),
        (r#"@"\u{1_}""#, 0, [Err(fault(20, 6)); 2]),
        (r#"(@"\u{1__0}")"#, 0, [Ok(None); 2]),
        (r#""\u{1__0}""#, 0, [Ok(None); 2]),
        (r#"@"\u{1__0}""#, 99, [Ok(None); 2]),
        ("é", 1, [Ok(None); 2]),
    ];
    for (text, position, [off, on]) in rows {
        assert_eq!(annotation(text, false, *position), *off, "{text:?} at {position}");
        assert_eq!(annotation(text, true, *position), *on, "{text:?} at {position}, strictly");
    }
}

#[test]
fn listings() {
    let text = r#"a "\u{1_0}" "\u{1__0}" b"#;
    let list = |strict, start, budget| {
        let mut list = [0xaa; 24 * RECORD];
        let listing = oracle(text, false, strict).list(start, budget, &mut list);
        assert!(list[listing.count * RECORD..].iter().all(|byte| *byte == 0xaa), "bytes past the records stay");
        listing
    };
    let double = Listing { stop: Stop::Fault(fault(25, 18)), count: 4, position: 19 };
    assert_eq!(list(false, 0, 99), Listing { stop: Stop::End, count: 7, position: 24 });
    assert_eq!(list(true, 0, 99), double);
    assert_eq!(list(true, 0, 5), double);
    // the budget comes first
    assert_eq!(list(true, 0, 4), Listing { stop: Stop::Budget, count: 4, position: 12 });
    // from the position afterwards it goes on: `0`, `}`, and a string that is not closed
    let open = Stop::Fault(fault(17, 24));
    assert_eq!(list(true, 19, 99), Listing { stop: open, count: 2, position: 24 });
}

#[test]
fn forms() {
    let double = |place| Err(Unfolded::Fault(fault(25, place)));
    let rows: &[Both<Result<usize, Unfolded>>] = &[
        (r#"("\u{1__0}")"#, 0, [Ok(12), double(7)]),
        (r#"(a (@"\u{1__0}"))"#, 0, [Ok(17), double(11)]),
        (r#"(a (@"\u{1__0}"))"#, 3, [Ok(16), double(11)]),
        (r#"("\u{1_0}")"#, 0, [Ok(11); 2]),
        // none behind the form, and the first trouble
        (r#"(a)"\u{1__0}""#, 0, [Ok(3); 2]),
        (r#"(é"\u{1__0}")"#, 0, [Err(Unfolded::Fault(oracle::Fault { number: 11, data: [0xe9, 0], place: 1 })); 2]),
        (r#"("\u{1__0}""#, 0, [Err(Unfolded::Unclosed { place: 11 }), double(7)]),
        // no opening there
        (r#""\u{1__0}"()"#, 0, [Err(Unfolded::NoForm); 2]),
    ];
    for (text, position, [off, on]) in rows {
        assert_eq!(oracle(text, false, false).fold(*position), *off, "{text:?} at {position}");
        assert_eq!(oracle(text, false, true).fold(*position), *on, "{text:?} at {position}, strictly");
    }
}

/// Where 25 stands in what follows `\u{`: the digits read one by one, up to what ends them, or to one with which the number no longer
/// fits 32 bits.
fn read_by_digits(digits: &str) -> Option<usize> {
    let mut number = 0_u64;
    let mut last = None;
    for (at, c) in digits.chars().enumerate() {
        match (c.to_digit(16), last) {
            (Some(digit), _) => number = number * 16 + u64::from(digit),
            (None, Some('_')) if c == '_' => return Some(at),
            (None, Some(_)) if c == '_' => {}
            _ => return None,
        }
        if number > u64::from(u32::MAX) {
            return None;
        }
        last = Some(c);
    }
    None
}

/// Every sequence of up to so many parts behind `\u{`, and behind digits with which the number is about to overflow.
#[test]
fn the_model_is_a_reading_by_digits() {
    let parts: [&[u8]; 7] = [b"_", b"1", b"f", b"d800", b"}", b"\"", b"g"];
    let (mut doubles, mut others) = (0, 0);
    for front in ["", "fffffff", "ffffffff", "ffff_ffff", "fffffff_", "ffffffff_", "0_0000_0000_1"] {
        every(&parts, 5, &mut front.into(), &mut |digits| {
            let digits = std::str::from_utf8(digits).unwrap();
            let text = format!("\"\\u{{{digits}");
            let off = said(&oracle(&text, false, false), 0);
            let on = said(&oracle(&text, false, true), 0);
            match read_by_digits(digits) {
                Some(at) => {
                    doubles += 1;
                    assert_eq!(on, (Fault(25, NONE, 4 + at), 5 + at), "{text:?}");
                }
                None => {
                    others += 1;
                    assert_eq!(on, off, "{text:?}");
                }
            }
        });
    }
    assert!(doubles > 5_000 && others > 5_000, "{doubles} doubles, {others} others");
}

/// Random texts have pairs in strings, names, annotations and other runs, beside each other error of such a number; 25 stands at an
/// underscore behind another; and what is no 25 is the answer with the setting off.
#[test]
fn random_texts() {
    let mut texts = Texts::new(6);
    let mut instead = BTreeMap::new();
    for _ in 0..200_000 {
        let text = texts.text(60);
        for allow_confusing in [false, true] {
            let off = oracle(&text, allow_confusing, false).parse(0);
            let on = oracle(&text, allow_confusing, true).parse(0);
            let (Answer::Fault(oracle::Fault { number: 25, data: NONE, place }), after) = on else {
                assert_eq!(on, off, "{text:?}");
                continue;
            };
            assert_eq!((&text[place - 1..after], after), ("__", place + 1), "{text:?}");
            assert!(after <= off.1, "{text:?}");
            let was = match off.0 {
                Answer::End => panic!("the end of {text:?}"),
                Answer::Token(token) => token.kind(),
                Answer::Fault(fault) => 100 + u16::from(fault.number),
            };
            *instead.entry(was).or_insert(0) += 1;
        }
    }
    for was in [STRING, ID, ANNOTATION, RESERVED, 112, 113, 114, 116, 117, 118, 119, 120, 121] {
        let count = instead.get(&was).copied().unwrap_or(0);
        assert!(count > 20, "25 instead of {was}: {count} times");
    }
}
