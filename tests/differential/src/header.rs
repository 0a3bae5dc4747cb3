//! The header's constants, each shown by a call that answers it. (`ours` has those of out[0] and of the arrays' lengths, `limits`
//! the longest text.)

use crate::compare::shown;
use crate::ours::{self, Found, Reading, Refused, Stop, Words, c};

/// A token, and its kind.
const KINDS: [(&str, u64); 19] = [
    (";;", c::KIND_LINE_COMMENT),
    ("(;;)", c::KIND_BLOCK_COMMENT),
    (" ", c::KIND_WHITESPACE),
    ("(", c::KIND_LPAREN),
    (")", c::KIND_RPAREN),
    ("\"\"", c::KIND_STRING),
    ("$a", c::KIND_ID),
    ("a", c::KIND_KEYWORD),
    ("@a", c::KIND_ANNOTATION),
    (",", c::KIND_RESERVED),
    ("1", c::KIND_INTEGER),
    ("inf", c::KIND_INF),
    ("nan", c::KIND_NAN),
    ("nan:0x1", c::KIND_NAN_VAL),
    ("1.5", c::KIND_NORMAL),
    ("+1", c::KIND_INTEGER | c::KIND_PLUS),
    ("-1", c::KIND_INTEGER | c::KIND_MINUS),
    ("1_0", c::KIND_INTEGER | c::KIND_UNDERSCORES),
    ("0x1", c::KIND_INTEGER | c::KIND_HEX),
];

/// A text, a position, and by what the call for one token there is refused.
const ERRORS: [(&[u8], usize, u64); 14] = [
    (b"\xff", 0, c::NOT_UTF8),
    (b"a", 2, c::PAST_END),
    ("é".as_bytes(), 1, c::INSIDE_CHARACTER),
    (b"(;", 0, c::DANGLING_BLOCK_COMMENT),
    (b"'\x01", 1, c::UNEXPECTED),
    (b"\"\x01\"", 0, c::INVALID_STRING_ELEMENT),
    (b"\"\\q\"", 0, c::INVALID_STRING_ESCAPE),
    (b"\"\\4g\"", 0, c::INVALID_HEX_DIGIT),
    (b"\"\\u1\"", 0, c::EXPECTED),
    (b"\"", 0, c::UNEXPECTED_EOF),
    (b"\"\\u{100000000}\"", 0, c::NUMBER_TOO_BIG),
    (b"\"\\u{d800}\"", 0, c::INVALID_UNICODE_VALUE),
    (b"\"\\u{1_}\"", 0, c::LONE_UNDERSCORE),
    ("\"\u{202e}\"".as_bytes(), 0, c::CONFUSING_UNICODE),
];

/// A text, a setting, and by what the call for one token is refused without the setting and with it, 0 for not at all.
const SETTINGS: [(&[u8], u64, u64, u64); 3] = [
    ("\"\u{202e}\"".as_bytes(), c::ALLOW_CONFUSING, c::CONFUSING_UNICODE, 0),
    (b"\"\\u{1__0}\"", c::STRICT_DIGITS, 0, c::DOUBLE_UNDERSCORE),
    (b"\"\\u{1__}\"", c::STRICT_DIGITS, c::LONE_UNDERSCORE, c::DOUBLE_UNDERSCORE),
];

/// A token, a reader, and the bytes that it gives.
const READERS: [(&str, u64, &str); 7] = [
    ("-1.2e3", c::SRC, "-1.2e3"),
    ("\"a\"", c::STRING, "a"),
    ("-1", c::INTEGER, "-1"),
    ("-1.2e3", c::INTEGRAL, "-1"),
    ("-1.2e3", c::FRACTION, "2"),
    ("-1.2e3", c::EXPONENT, "3"),
    ("nan:0x1", c::PAYLOAD, "1"),
];

/// A token, a reader, the buffer's length, and by what it is refused. 2 and 3 are no reader's.
const MISREADINGS: [(&str, u64, usize, u64); 4] = [
    ("$", c::STRING, 0, c::NOT_THAT_KIND),
    ("$a", 2, 0, c::NOT_THAT_KIND),
    ("@a", 3, 0, c::NOT_THAT_KIND),
    ("\"\\ff\"", c::STRING, 0, c::BUFFER_TOO_SHORT),
];

/// A token that has a name, and its kind; the name is `a`.
const NAMES: [(&str, u64); 2] = [("$a", c::KIND_ID), ("@a", c::KIND_ANNOTATION)];

/// A token, the buffer's length, and by what its name is refused.
const MISNOMERS: [(&str, usize, u64); 5] = [
    ("$\"\\ff\"", 1, c::INVALID_UTF8_ID),
    ("$", 0, c::EMPTY_ID),
    ("@", 0, c::EMPTY_ANNOTATION),
    ("a", 0, c::NOT_THAT_KIND),
    ("@\"\\61\"", 0, c::BUFFER_TOO_SHORT),
];

/// The token that a text is, as words.
fn token(text: &str) -> Words {
    match ours::parse(text.as_bytes(), 0, 0) {
        (Found::Token { kind, offset: 0, len }, _) if len == text.len() as u64 => [kind, 0, len],
        (found, _) => panic!("{text:?} is a token, not {found:?}"),
    }
}

/// The number of a reader's refusal, if it is one.
fn refusal(reading: Reading) -> Option<u64> {
    if let Reading::Refused(Refused { number, .. }) = reading { Some(number) } else { None }
}

/// Asks what each constant says; a wrong one is a panic that names the text.
pub fn holds() {
    assert_eq!(u64::from(ours::version()), c::VERSION, "the library is the header's");
    for (text, kind) in KINDS {
        assert_eq!(token(text)[0], kind, "the header's kind of {text:?}");
    }
    assert_eq!(c::KIND_MASK + 1, c::KIND_PLUS, "the mask is what lies under the bits");
    assert!(c::ALLOW_CONFUSING.is_power_of_two() && c::STRICT_DIGITS.is_power_of_two(), "a setting is one bit");
    for (text, position, number) in ERRORS {
        match ours::parse(text, 0, position).0 {
            Found::Refused(refused) => assert_eq!(refused.number, number, "the header's refusal of {}", shown(text)),
            found => panic!("{} is refused by {number}, not {found:?}", shown(text)),
        }
    }
    for (text, setting, off, on) in SETTINGS {
        // of the text no other setting says anything
        for (settings, number) in [(0, off), (!setting, off), (setting, on), (u64::MAX, on)] {
            let refused = ours::parse(text, settings as u32, 0).0.refused().map_or(0, |refused| refused.number);
            assert_eq!(refused, number, "the header's setting {setting} for {}, as {settings:#x}", shown(text));
        }
    }
    assert_eq!(ours::message(c::DOUBLE_UNDERSCORE, [0, 0], &mut [0; c::MESSAGE as usize]), Err(c::NO_MESSAGE));
    for (text, reader, value) in READERS {
        match ours::read(text.as_bytes(), reader, token(text), &mut []) {
            Reading::Text { start, len } => {
                assert_eq!(&text[start as usize..][..len as usize], value, "the header's reader {reader} of {text:?}");
            }
            other => panic!("reader {reader} gives {value:?} of {text:?}, not {other:?}"),
        }
    }
    for (text, reader, room, number) in MISREADINGS {
        let reading = ours::read(text.as_bytes(), reader, token(text), &mut [0; 1][..room]);
        assert_eq!(refusal(reading), Some(number), "the header's refusal of reader {reader} of {text:?}");
    }
    for (text, kind) in NAMES {
        let name = (Reading::Text { start: 1, len: 1 }, kind);
        assert_eq!(ours::name(text.as_bytes(), token(text), &mut []), name, "the header's name of {text:?}");
    }
    for (text, room, number) in MISNOMERS {
        let (name, kind) = ours::name(text.as_bytes(), token(text), &mut [0; 1][..room]);
        assert_eq!((refusal(name), kind), (Some(number), 0), "the header's refusal of the name of {text:?}");
    }
    let other = ours::read(b"a", c::SRC, [c::KIND_KEYWORD, 0, 2], &mut []);
    assert_eq!(refusal(other), Some(c::NOT_THAT_TOKEN), "the header's refusal of a token that is not there");
    for (text, sign) in [("1", c::SIGN_NONE), ("+1", c::SIGN_PLUS), ("-1", c::SIGN_MINUS)] {
        assert_eq!(ours::integer_sign(text.as_bytes(), token(text)), Ok(Some(sign)), "the header's sign of {text:?}");
    }
    let out_of_range = Err(Refused { number: c::OUT_OF_RANGE, values: [0, 0], place: 0 });
    assert_eq!(ours::integer_32(b"4294967296", token("4294967296")), out_of_range, "the header's refusal of a value");
    assert_eq!(ours::message(c::OUT_OF_RANGE, [0, 0], &mut []), Err(c::NO_MESSAGE));
    for (levels, folded) in [(c::LEVELS, Ok(2 * c::LEVELS)), (c::LEVELS + 1, Err((c::TOO_DEEP, c::LEVELS)))] {
        let text = "(".repeat(levels as usize) + &")".repeat(levels as usize);
        let answer = ours::fold(text.as_bytes(), 0, 0).map_err(|refused| (refused.number, refused.place));
        assert_eq!(answer, folded, "the header's levels of {text}");
    }
    let unclosed = Err(Refused { number: c::UNCLOSED, values: [0, 0], place: 2 });
    assert_eq!(ours::fold(b"(a", 0, 0), unclosed, "the header's refusal of a form that is open");
    assert_eq!(thallusweb::lexer::Lexer::LEVELS as u64, c::LEVELS, "the bindings' levels");
    // two records, and a byte less
    for (room, stop) in [(2 * c::RECORD, Stop::End), (2 * c::RECORD - 1, Stop::Full)] {
        assert_eq!(ours::list(b"()", 0, 0, 9, &mut vec![0; room as usize]).stop, stop, "a list of {room} bytes");
    }
    // the longest message, which has 51 bytes
    let longest = ours::message(c::CONFUSING_UNICODE, [0x202e, 0], &mut [0; c::MESSAGE as usize]);
    assert!(longest.is_ok(), "a message longer than {} bytes: {longest:?}", c::MESSAGE);
    assert_eq!(ours::message(0, [0, 0], &mut []), Err(c::NO_MESSAGE));
    // no answer has this number, which the bindings give a refused move
    assert_eq!(thallusweb::Refusal::CounterFull.number(), c::COUNTER_FULL);
}
