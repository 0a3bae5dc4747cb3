//! The messages of errors.

use oracle::lexer::{LexError, Lexer};
use oracle::numbers::{message, of_error};
use oracle::texts::Texts;
use oracle::{Fault, Oracle};

const CONFUSING: [u32; 9] = [0x202a, 0x202b, 0x202d, 0x202e, 0x2066, 0x2067, 0x2068, 0x2069, 0x206c];

/// How a message shows a character.
fn shown(c: char) -> String {
    match c {
        '\t' => r"\t".to_string(),
        '\r' => r"\r".to_string(),
        '\n' => r"\n".to_string(),
        '\\' => r"\\".to_string(),
        '\'' => r"\'".to_string(),
        ' '..='~' => c.to_string(),
        _ => format!("\\u{{{:x}}}", u32::from(c)),
    }
}

#[test]
fn messages_without_a_character() {
    let rows: &[(u8, [u32; 2], &str)] = &[
        (10, [0, 0], "unterminated block comment"),
        (17, [0, 0], "unexpected end-of-file"),
        (18, [0, 0], "number is too big to parse"),
        (19, [0, 0], "invalid unicode scalar value 0x0"),
        (19, [0xd800, 0], "invalid unicode scalar value 0xd800"),
        (19, [0xffff_ffff, 0], "invalid unicode scalar value 0xffffffff"),
        (20, [0, 0], "bare underscore in numeric literal"),
        (22, [0, 1], "malformed UTF-8 encoding of string-based id"),
        (22, [7, 0], "malformed UTF-8 encoding of string-based id"),
        (23, [0, 0], "empty identifier"),
        (24, [0, 0], "empty annotation id"),
    ];
    for &(number, data, text) in rows {
        assert_eq!(message(number, data).as_deref(), Some(text), "{number} {data:?}");
    }
}

#[test]
fn escapes_in_messages() {
    let rows = [
        ('\t', r"unexpected character '\t'"),
        ('\r', r"unexpected character '\r'"),
        ('\n', r"unexpected character '\n'"),
        ('\\', r"unexpected character '\\'"),
        ('\'', r"unexpected character '\''"),
        ('"', r#"unexpected character '"'"#),
        (' ', "unexpected character ' '"),
        ('~', "unexpected character '~'"),
        ('\0', r"unexpected character '\u{0}'"),
        ('\x1f', r"unexpected character '\u{1f}'"),
        ('\x7f', r"unexpected character '\u{7f}'"),
        ('é', r"unexpected character '\u{e9}'"),
        ('\u{10FFFF}', r"unexpected character '\u{10ffff}'"),
    ];
    for (c, text) in rows {
        assert_eq!(message(11, [c.into(), 0]).as_deref(), Some(text));
    }
}

/// Each message that takes a character, for each scalar value; and the longest message of all has 51 bytes.
#[test]
fn messages_for_every_character() {
    let mut longest = 0;
    let mut check = |number: u8, data: [u32; 2], expected: String| {
        let text = message(number, data).unwrap();
        assert_eq!(text, expected, "{number} {data:?}");
        longest = longest.max(text.len());
    };
    for c in '\0'..=char::MAX {
        let (data, shown) = ([c.into(), 0], shown(c));
        check(11, data, format!("unexpected character '{shown}'"));
        check(12, data, format!("invalid character in string '{shown}'"));
        check(13, data, format!("invalid string escape '{shown}'"));
        check(14, data, format!("invalid hex digit '{shown}'"));
        check(16, ['{'.into(), c.into()], format!("expected '{{' but found '{shown}'"));
        check(16, [c.into(), c.into()], format!("expected '{shown}' but found '{shown}'"));
    }
    for c in CONFUSING {
        check(21, [c, 0], format!("likely-confusing unicode character found '\\u{{{c:x}}}'"));
    }
    for (number, data) in [(10, 0), (17, 0), (18, 0), (19, u32::MAX), (20, 0), (22, 0), (23, 0), (24, 0)] {
        longest = longest.max(message(number, [data, 0]).unwrap().len());
    }
    assert_eq!(longest, 51);
}

#[test]
fn no_message() {
    for number in (0..10).chain([15]).chain(25..=255) {
        assert_eq!(message(number, [0x61, 0x61]), None, "{number}");
    }
    for c in [0xd800, 0xdfff, 0x11_0000, u32::MAX] {
        for number in [11, 12, 13, 14, 21] {
            assert_eq!(message(number, [c, 0x61]), None, "{number} {c:x}");
        }
        assert_eq!([message(16, [c, 0x61]), message(16, [0x61, c])], [None, None], "{c:x}");
    }
    for c in ('\0'..='\u{ffff}').map(u32::from).filter(|c| !CONFUSING.contains(c)) {
        assert_eq!(message(21, [c, 0]), None, "{c:x}");
    }
}

/// A message depends on number and data alone: those that lexing gives are told as the original tells them.
#[test]
fn messages_of_random_texts() {
    let mut texts = Texts::new(4);
    for _ in 0..100_000 {
        let text = texts.text(40);
        let Err(error) = Lexer::new(&text).parse(&mut 0) else {
            continue;
        };
        let told = error.to_string();
        let fault = Fault::from(error);
        assert_eq!(message(fault.number, fault.data), Some(told), "{text:?}");
    }
}

#[test]
fn messages_of_readers() {
    for (text, told) in [
        (r#"$"\ff""#, "malformed UTF-8 encoding of string-based id"),
        ("$", "empty identifier"),
        ("@", "empty annotation id"),
    ] {
        let oracle = Oracle::new(text, false);
        let oracle::Answer::Token(token) = oracle.parse(0).0 else {
            panic!("{text:?} is a token");
        };
        let read = oracle.name(&token).unwrap();
        let fault = read.unwrap_err();
        assert_eq!(message(fault.number, fault.data).as_deref(), Some(told), "{text:?}");
    }
}

/// 15 is built nowhere: it has a number, and rule 13 refuses a message for it.
#[test]
fn an_invalid_digit() {
    assert_eq!(of_error(&LexError::InvalidDigit('x')), (15, ['x'.into(), 0]));
}
