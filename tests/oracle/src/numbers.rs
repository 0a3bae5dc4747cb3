//! The numbers of kinds and of errors, and the names of kinds (docs/RULES.md).

use crate::lexer::{FloatKind, IntegerKind, LexError, Lexer, TokenKind};
use crate::{Answer, Oracle};
use std::str::Utf8Error;
use std::sync::LazyLock;

/// An integer's `+`.
pub const PLUS: u16 = 256;
/// An integer's `-`, or a negative Inf, Nan or NanVal.
pub const MINUS: u16 = 512;
/// A number with underscores.
pub const UNDERSCORES: u16 = 1024;
/// A hexadecimal Integer or Normal.
pub const HEX: u16 = 2048;

/// The number of a kind, its details included.
pub fn of_kind(kind: TokenKind) -> u16 {
    let detail = |flag: u16, is: bool| if is { flag } else { 0 };
    match kind {
        TokenKind::LineComment => 1,
        TokenKind::BlockComment => 2,
        TokenKind::Whitespace => 3,
        TokenKind::LParen => 4,
        TokenKind::RParen => 5,
        TokenKind::String => 6,
        TokenKind::Id => 7,
        TokenKind::Keyword => 8,
        TokenKind::Annotation => 9,
        TokenKind::Reserved => 10,
        TokenKind::Integer(kind) => 11 + integer_details(kind),
        TokenKind::Float(FloatKind::Inf { negative }) => 12 + detail(MINUS, negative),
        TokenKind::Float(FloatKind::Nan { negative }) => 13 + detail(MINUS, negative),
        TokenKind::Float(FloatKind::NanVal { negative, has_underscores }) => {
            14 + detail(MINUS, negative) + detail(UNDERSCORES, has_underscores)
        }
        TokenKind::Float(FloatKind::Normal { has_underscores, hex }) => {
            15 + detail(UNDERSCORES, has_underscores) + detail(HEX, hex)
        }
    }
}

/// The details of an integer. Its fields are private; they are read from its `Debug` text, once for each of the twelve
/// kinds of integer.
fn integer_details(kind: IntegerKind) -> u16 {
    static KNOWN: LazyLock<Vec<(IntegerKind, u16)>> = LazyLock::new(|| {
        let mut known = Vec::new();
        for sign in ["", "+", "-"] {
            for digits in ["10", "1_0", "0x10", "0x1_0"] {
                if let Ok(Some(token)) = Lexer::new(&format!("{sign}{digits}")).parse(&mut 0)
                    && let TokenKind::Integer(kind) = token.kind
                {
                    known.push((kind, debugged_details(kind)));
                }
            }
        }
        known
    });
    match KNOWN.iter().find(|(known, _)| *known == kind) {
        Some((_, details)) => *details,
        None => debugged_details(kind),
    }
}

fn debugged_details(kind: IntegerKind) -> u16 {
    let text = format!("{kind:?}");
    let detail = |flag: u16, field: &str| if text.contains(field) { flag } else { 0 };
    detail(PLUS, "sign: Some(Plus)")
        + detail(MINUS, "sign: Some(Minus)")
        + detail(UNDERSCORES, "has_underscores: true")
        + detail(HEX, "hex: true")
}

/// The name of a kind, as the program `wat-tokens` prints it.
pub fn name(kind: u16) -> &'static str {
    match kind & 0xff {
        1 => "line-comment",
        2 => "block-comment",
        3 => "whitespace",
        4 => "lparen",
        5 => "rparen",
        6 => "string",
        7 => "id",
        8 => "keyword",
        9 => "annotation",
        10 => "reserved",
        11 => "integer",
        12 => "inf",
        13 => "nan",
        14 => "nan-val",
        15 => "normal",
        _ => panic!("no kind has the number {kind}"),
    }
}

/// The details of a kind, as the program `wat-tokens` prints them.
pub fn details(kind: u16) -> String {
    let sign = match kind & (PLUS | MINUS) {
        0 => "none",
        PLUS => "plus",
        _ => "minus",
    };
    let side = if kind & MINUS == 0 { "pos" } else { "neg" };
    let base = if kind & HEX == 0 { "dec" } else { "hex" };
    let spelling = if kind & UNDERSCORES == 0 { "plain" } else { "underscores" };
    match kind & 0xff {
        11 => format!("{sign},{base},{spelling}"),
        12 | 13 => side.to_string(),
        14 => format!("{side},{spelling}"),
        15 => format!("{base},{spelling}"),
        _ => "-".to_string(),
    }
}

/// The number and the data of an error.
pub fn of_error(error: &LexError) -> (u8, [u32; 2]) {
    let char = |c: char| [u32::from(c), 0];
    match *error {
        LexError::DanglingBlockComment => (10, [0, 0]),
        LexError::Unexpected(c) => (11, char(c)),
        LexError::InvalidStringElement(c) => (12, char(c)),
        LexError::InvalidStringEscape(c) => (13, char(c)),
        LexError::InvalidHexDigit(c) => (14, char(c)),
        LexError::InvalidDigit(c) => (15, char(c)),
        LexError::Expected { wanted, found } => (16, [wanted.into(), found.into()]),
        LexError::UnexpectedEof => (17, [0, 0]),
        LexError::NumberTooBig => (18, [0, 0]),
        LexError::InvalidUnicodeValue(n) => (19, [n, 0]),
        LexError::LoneUnderscore => (20, [0, 0]),
        LexError::ConfusingUnicode(c) => (21, char(c)),
        LexError::InvalidUtf8Id(ref error) => (22, of_utf8_error(error)),
        LexError::EmptyId => (23, [0, 0]),
        LexError::EmptyAnnotation => (24, [0, 0]),
    }
}

/// Valid-up-to and error length, 0 for a text that ends inside a character.
pub fn of_utf8_error(error: &Utf8Error) -> [u32; 2] {
    let valid = u32::try_from(error.valid_up_to()).expect("a text of at most 4 GiB");
    [valid, error.error_len().unwrap_or(0) as u32]
}

/// The original's message for an error; none where rule 13 refuses by 34.
pub fn message(number: u8, data: [u32; 2]) -> Option<String> {
    error(number, data).map(|error| error.to_string())
}

/// The error with that number and data, where rule 13 has a message for it.
fn error(number: u8, data: [u32; 2]) -> Option<LexError> {
    let char = |i: usize| char::from_u32(data[i]);
    Some(match number {
        10 => LexError::DanglingBlockComment,
        11 => LexError::Unexpected(char(0)?),
        12 => LexError::InvalidStringElement(char(0)?),
        13 => LexError::InvalidStringEscape(char(0)?),
        14 => LexError::InvalidHexDigit(char(0)?),
        16 => LexError::Expected { wanted: char(0)?, found: char(1)? },
        17 => LexError::UnexpectedEof,
        18 => LexError::NumberTooBig,
        19 => LexError::InvalidUnicodeValue(data[0]),
        20 => LexError::LoneUnderscore,
        21 => LexError::ConfusingUnicode(char(0).filter(|c| is_confusing(*c))?),
        // the message doesn't tell where the bytes fail
        22 => LexError::InvalidUtf8Id(String::from_utf8(vec![0xff]).unwrap_err().utf8_error()),
        23 => LexError::EmptyId,
        24 => LexError::EmptyAnnotation,
        _ => return None,
    })
}

/// Whether the original refuses a character raw in a string by 21.
fn is_confusing(c: char) -> bool {
    let string = format!("\"{c}\"");
    matches!(Oracle::new(&string, false).parse(0).0, Answer::Fault(fault) if fault.number == 21)
}
