//! Answers for one token: the rules of docs/RULES.md, and the texts on which a reading of them most easily goes wrong.

use Flag::{Either, Off, On};
use Said::{End, Fault, Token};
use oracle::numbers::{HEX, MINUS, PLUS, UNDERSCORES};
use oracle::texts::Texts;
use oracle::{Answer, Oracle, Settings, utf8};
use std::collections::BTreeSet;

const LINE_COMMENT: u16 = 1;
const BLOCK_COMMENT: u16 = 2;
const WHITESPACE: u16 = 3;
const LPAREN: u16 = 4;
const RPAREN: u16 = 5;
const STRING: u16 = 6;
const ID: u16 = 7;
const KEYWORD: u16 = 8;
const ANNOTATION: u16 = 9;
const RESERVED: u16 = 10;
const INTEGER: u16 = 11;
const INF: u16 = 12;
const NAN: u16 = 13;
const NAN_VAL: u16 = 14;
const NORMAL: u16 = 15;

/// The settings of the flag that a row is for.
#[derive(Clone, Copy, Debug)]
enum Flag {
    Off,
    On,
    Either,
}

/// An answer in numbers: a token's kind and length; an error's number, data and place.
#[derive(Clone, Copy, Debug, PartialEq)]
enum Said {
    End,
    Token(u16, u32),
    Fault(u8, [u32; 2], usize),
}

/// Text, flag and position; the answer and the position afterwards.
type Row<'t> = (&'t str, Flag, usize, Said, usize);

const NONE: [u32; 2] = [0, 0];

const fn char(c: char) -> [u32; 2] {
    [c as u32, 0]
}

const fn expected(wanted: char, found: char) -> [u32; 2] {
    [wanted as u32, found as u32]
}

fn said(text: &str, allow_confusing: bool, position: usize) -> (Said, usize) {
    let (answer, after) = Oracle::new(text, allow_confusing).parse(position);
    let said = match answer {
        Answer::End => End,
        Answer::Token(token) => {
            assert_eq!(token.offset(), position, "offset of the token of {text:?} at {position}");
            Token(token.kind(), token.len())
        }
        Answer::Fault(fault) => Fault(fault.number, fault.data, fault.place),
    };
    (said, after)
}

fn check(rows: &[Row]) {
    for &(text, flag, position, answer, after) in rows {
        let flags: &[bool] = match flag {
            Off => &[false],
            On => &[true],
            Either => &[false, true],
        };
        for &allow_confusing in flags {
            let found = said(text, allow_confusing, position);
            assert_eq!(
                found,
                (answer, after),
                "{text:?} at {position}, confusing characters allowed: {allow_confusing}"
            );
        }
    }
}

/// Checks texts that are one token each, with either setting of the flag.
fn check_whole(rows: &[(&str, u16)]) {
    for &(text, kind) in rows {
        check(&[(text, Either, 0, Token(kind, text.len() as u32), text.len())]);
    }
}

#[test]
fn both_sides_of_the_line() {
    check(&[
        ("", Either, 0, End, 0),
        ("(;)", Either, 0, Fault(10, NONE, 0), 0),
        ("(;;)", Either, 0, Token(BLOCK_COMMENT, 4), 4),
        ("(;(;;)", Either, 0, Fault(10, NONE, 0), 0),
        ("1__0", Either, 0, Token(RESERVED, 4), 4),
        ("1.", Either, 0, Token(NORMAL, 2), 2),
        ("1.e5", Either, 0, Token(NORMAL, 4), 4),
        ("nan:0x", Either, 0, Token(KEYWORD, 6), 6),
        ("+nan:0x", Either, 0, Token(RESERVED, 7), 7),
        (r#"a"x""#, Either, 0, Token(RESERVED, 4), 4),
        (r#""a""b""#, Either, 0, Token(RESERVED, 6), 6),
        (r#"$"""#, Either, 0, Token(ID, 3), 3),
        (r#""\u{d800}""#, Either, 0, Fault(19, [0xd800, 0], 7), 8),
        (r#""\u{1_}""#, Either, 0, Fault(20, NONE, 5), 6),
        (r#""\u{100000000}""#, Either, 0, Fault(18, NONE, 12), 13),
        (r#""\u{1__0}""#, Either, 0, Token(STRING, 10), 10),
        (r#"$"\ff""#, Either, 0, Token(ID, 6), 6),
        ("(;\u{202e};)", Off, 0, Fault(21, char('\u{202e}'), 2), 7),
        ("(;\u{202e};)", On, 0, Token(BLOCK_COMMENT, 7), 7),
        (";;\u{202c}", Either, 0, Token(LINE_COMMENT, 5), 5),
    ]);
}

#[test]
fn readings_that_look_right_and_are_not() {
    check(&[
        // the `;` of `(;)` serves once
        ("(;)", Either, 0, Fault(10, NONE, 0), 0),
        ("(;);)", Either, 0, Token(BLOCK_COMMENT, 5), 5),
        // CR ends a line comment too, and neither end belongs to it
        (";;a\rb\n", Either, 0, Token(LINE_COMMENT, 3), 3),
        (";;a\r\nb", Either, 0, Token(LINE_COMMENT, 3), 3),
        (";;a\nb", Either, 0, Token(LINE_COMMENT, 3), 3),
        (";;a", Either, 0, Token(LINE_COMMENT, 3), 3),
        // after a string error the position is past what was consumed
        (r#""\q" x"#, Either, 0, Fault(13, char('q'), 2), 3),
        (r#"a"b"c"\q" x"#, Either, 0, Fault(13, char('q'), 7), 8),
        // the scalar check comes before `}`
        (r#""\u{d800""#, Either, 0, Fault(19, [0xd800, 0], 7), 8),
        (r#""\u{110000x}""#, Either, 0, Fault(19, [0x110000, 0], 9), 10),
    ]);
}

#[test]
fn positions_inside_a_text() {
    check(&[
        ("", Either, 0, End, 0),
        ("é(", Either, 3, End, 3),
        ("é(", Either, 2, Token(LPAREN, 1), 3),
        ("abc", Either, 1, Token(KEYWORD, 2), 3),
        ("a (;)", Either, 2, Fault(10, NONE, 2), 2),
        ("a \u{1}", Either, 2, Fault(11, char('\u{1}'), 2), 2),
        (r#"a "\q""#, Either, 2, Fault(13, char('q'), 4), 5),
        (r#"a "\4"#, Either, 2, Fault(17, NONE, 5), 5),
        ("é;;\u{2066}\n", Off, 2, Fault(21, char('\u{2066}'), 4), 7),
        ("é;;\u{2066}\n", On, 2, Token(LINE_COMMENT, 5), 7),
    ]);
}

#[test]
#[should_panic(expected = "out of range")]
fn a_position_past_the_end_is_a_panic() {
    said("a", false, 2);
}

#[test]
#[should_panic(expected = "not a char boundary")]
fn a_position_inside_a_character_is_a_panic() {
    said("é", false, 1);
}

#[test]
fn the_two_numbers_of_a_text_that_is_not_utf8() {
    let rows: &[(&[u8], Option<[u32; 2]>)] = &[
        (b"", None),
        (b"a\xc3\xa9\xf4\x8f\xbf\xbf", None),
        (b"a\xff", Some([1, 1])),
        (b"\x80", Some([0, 1])),
        (b"\xc0\x80", Some([0, 1])),
        (b"\xed\xa0\x80", Some([0, 1])),
        (b"\xe2(", Some([0, 1])),
        (b"\xe2\x80(", Some([0, 2])),
        (b"\xf0\x9f\x98(", Some([0, 3])),
        (b"\xf4\x90\x80\x80", Some([0, 1])),
        // the text ends inside a character
        (b"\xc3\xa9\xc3", Some([2, 0])),
        (b"a\xe2\x80", Some([1, 0])),
        (b"\xf0\x9f\x98", Some([0, 0])),
    ];
    for (bytes, expected) in rows {
        assert_eq!(utf8(bytes).err(), *expected, "{bytes:x?}");
    }
}

#[test]
fn each_ascii_character_alone() {
    for byte in 0..=0x7f_u8 {
        let c = char::from(byte);
        let text = c.to_string();
        let (answer, after) = match c {
            ' ' | '\t' | '\n' | '\r' => (Token(WHITESPACE, 1), 1),
            '(' => (Token(LPAREN, 1), 1),
            ')' => (Token(RPAREN, 1), 1),
            ';' | ',' | '[' | ']' | '{' | '}' => (Token(RESERVED, 1), 1),
            '"' => (Fault(17, NONE, 1), 1),
            '$' => (Token(ID, 1), 1),
            '@' => (Token(ANNOTATION, 1), 1),
            'a'..='z' => (Token(KEYWORD, 1), 1),
            '0'..='9' => (Token(INTEGER, 1), 1),
            'A'..='Z' => (Token(RESERVED, 1), 1),
            _ if "!#%&'*+-./:<=>?\\^_`|~".contains(c) => (Token(RESERVED, 1), 1),
            _ => (Fault(11, char(c), 0), 0),
        };
        check(&[(&text, Either, 0, answer, after)]);
    }
}

#[test]
fn characters_that_start_nothing() {
    for c in ['\0', '\u{b}', '\u{c}', '\u{7f}', '\u{80}', '\u{a0}', 'é', '\u{feff}', '\u{202e}', '\u{10ffff}'] {
        check(&[
            (&format!("{c}a"), Either, 0, Fault(11, char(c), 0), 0),
            // and end a run, a number and a line of blanks
            (&format!("a{c}a"), Either, 0, Token(KEYWORD, 1), 1),
            (&format!("1{c}"), Either, 0, Token(INTEGER, 1), 1),
            (&format!(" {c} "), Either, 0, Token(WHITESPACE, 1), 1),
        ]);
    }
}

// Faults in strings

#[test]
fn a_fault_is_found_before_the_text_ends() {
    check(&[
        (r#""\u{d800"#, Either, 0, Fault(19, [0xd800, 0], 7), 8),
        (r#""\u{1_"#, Either, 0, Fault(20, NONE, 5), 6),
        (r#""\u{ffffffff_"#, Either, 0, Fault(20, NONE, 12), 13),
        (r#""\u{fffffffff"#, Either, 0, Fault(18, NONE, 12), 13),
        // the end is a fault only where one more character is demanded
        (r#"""#, Either, 0, Fault(17, NONE, 1), 1),
        (r#""\"#, Either, 0, Fault(17, NONE, 2), 2),
        (r#""\4"#, Either, 0, Fault(17, NONE, 3), 3),
        (r#""\u"#, Either, 0, Fault(17, NONE, 3), 3),
        (r#""\u{"#, Either, 0, Fault(17, NONE, 4), 4),
        (r#""\u{41"#, Either, 0, Fault(17, NONE, 6), 6),
        (r#""aé"#, Either, 0, Fault(17, NONE, 4), 4),
    ]);
}

#[test]
fn order_of_the_faults_of_a_unicode_escape() {
    check(&[
        // `{`
        (r#""\u41}""#, Either, 0, Fault(16, expected('{', '4'), 3), 4),
        (r#""\u""#, Either, 0, Fault(16, expected('{', '"'), 3), 4),
        // the first digit
        (r#""\u{}""#, Either, 0, Fault(14, char('}'), 4), 5),
        (r#""\u{_1}""#, Either, 0, Fault(14, char('_'), 4), 5),
        (r#""\u{g}""#, Either, 0, Fault(14, char('g'), 4), 5),
        // the digit that overflows, in reading order
        (r#""\u{100000000_}""#, Either, 0, Fault(18, NONE, 12), 13),
        (r#""\u{1_00000000}""#, Either, 0, Fault(18, NONE, 13), 14),
        (r#""\u{00000000100000000}""#, Either, 0, Fault(18, NONE, 20), 21),
        (r#""\u{00000000010ffff}""#, Either, 0, Token(STRING, 21), 21),
        // an underscore at the end, then the value, then `}`
        (r#""\u{110000_}"#, Either, 0, Fault(20, NONE, 10), 11),
        (r#""\u{d800_}""#, Either, 0, Fault(20, NONE, 8), 9),
        (r#""\u{1__}""#, Either, 0, Fault(20, NONE, 6), 7),
        (r#""\u{110000}""#, Either, 0, Fault(19, [0x110000, 0], 9), 10),
        (r#""\u{dfff}""#, Either, 0, Fault(19, [0xdfff, 0], 7), 8),
        (r#""\u{ffffffff}""#, Either, 0, Fault(19, [0xffff_ffff, 0], 11), 12),
        (r#""\u{41g"#, Either, 0, Fault(16, expected('}', 'g'), 6), 7),
        (r#""\u{41""#, Either, 0, Fault(16, expected('}', '"'), 6), 7),
        // both sides of the scalar values
        (r#""\u{d7ff}""#, Either, 0, Token(STRING, 10), 10),
        (r#""\u{e000}""#, Either, 0, Token(STRING, 10), 10),
        (r#""\u{10ffff}""#, Either, 0, Token(STRING, 12), 12),
        (r#""\u{0}""#, Either, 0, Token(STRING, 7), 7),
    ]);
}

#[test]
fn the_bad_character_is_consumed() {
    check(&[
        (r#""\4""#, Either, 0, Fault(14, char('"'), 3), 4),
        (r#""\4é""#, Either, 0, Fault(14, char('é'), 3), 5),
        (r#""\ué""#, Either, 0, Fault(16, expected('{', 'é'), 3), 5),
        ("\"\\\n\"", Either, 0, Fault(13, char('\n'), 2), 3),
        ("\"\n\"", Either, 0, Fault(12, char('\n'), 1), 2),
        // `\b` and `\f` begin two hexadecimal digits
        (r#""\b""#, Either, 0, Fault(14, char('"'), 3), 4),
        (r#""\f""#, Either, 0, Fault(14, char('"'), 3), 4),
        (r#""\bf""#, Either, 0, Token(STRING, 5), 5),
        (r#""\fb""#, Either, 0, Token(STRING, 5), 5),
        (r#""\v""#, Either, 0, Fault(13, char('v'), 2), 3),
        (r#""\U{41}""#, Either, 0, Fault(13, char('U'), 2), 3),
    ]);
    for c in (0..0x20_u8).chain([0x7f]).map(char::from) {
        check(&[
            (&format!("\"a{c}\""), Either, 0, Fault(12, char(c), 2), 3),
            (&format!("\"\\{c}\""), Either, 0, Fault(13, char(c), 2), 3),
        ]);
    }
}

const CONFUSING: [char; 9] =
    ['\u{202a}', '\u{202b}', '\u{202d}', '\u{202e}', '\u{2066}', '\u{2067}', '\u{2068}', '\u{2069}', '\u{206c}'];

#[test]
fn confusing_characters() {
    for c in CONFUSING {
        check(&[
            (&format!("\"a{c}\""), Off, 0, Fault(21, char(c), 2), 5),
            (&format!("\"a{c}\""), On, 0, Token(STRING, 6), 6),
            (&format!("\"\\u{{{:x}}}\"", c as u32), Either, 0, Token(STRING, 10), 10),
            (&format!(";;a{c}"), Off, 0, Fault(21, char(c), 3), 6),
            (&format!(";;a{c}"), On, 0, Token(LINE_COMMENT, 6), 6),
            (&format!("(;a{c};)b"), Off, 0, Fault(21, char(c), 3), 8),
            (&format!("(;a{c};)b"), On, 0, Token(BLOCK_COMMENT, 8), 8),
            // where another character is asked for, it is just a wrong one
            (&format!("\"\\{c}"), Either, 0, Fault(13, char(c), 2), 5),
            (&format!("\"\\u{c}"), Either, 0, Fault(16, expected('{', c), 3), 6),
            (&format!("\"\\u{{{c}"), Either, 0, Fault(14, char(c), 4), 7),
            (&format!("\"\\u{{1{c}"), Either, 0, Fault(16, expected('}', c), 5), 8),
            (&format!("\"\\u{{1_{c}"), Either, 0, Fault(20, NONE, 5), 6),
            (&format!("\"\\4{c}"), Either, 0, Fault(14, char(c), 3), 6),
            (&c.to_string(), Either, 0, Fault(11, char(c), 0), 0),
        ]);
    }
}

#[test]
fn no_other_character_is_confusing() {
    for c in ('\u{80}'..=char::MAX).filter(|c| !CONFUSING.contains(c)) {
        let len = 2 + c.len_utf8();
        let rows =
            [(format!("\"{c}\""), Token(STRING, len as u32)), (format!(";;{c}"), Token(LINE_COMMENT, len as u32))];
        for (text, token) in rows {
            assert_eq!(said(&text, false, 0), (token, len), "{text:?}");
        }
    }
}

// Comments and tokens

#[test]
fn an_open_comment_comes_before_a_confusing_character() {
    check(&[
        ("(;\u{202e}", Either, 0, Fault(10, NONE, 0), 0),
        ("(;\u{202e}(;;)", Either, 0, Fault(10, NONE, 0), 0),
        // the first over all levels counts
        ("(;a(;\u{2067};)\u{202e};)x", Off, 0, Fault(21, char('\u{2067}'), 5), 15),
        ("(;\u{202c}\u{202e}\u{2067};)x", Off, 0, Fault(21, char('\u{202e}'), 5), 13),
        ("(;;)\u{202e}", Either, 0, Token(BLOCK_COMMENT, 4), 4),
        (";;\n\u{202e}", Either, 0, Token(LINE_COMMENT, 2), 2),
    ]);
}

#[test]
fn marks_of_block_comments_do_not_overlap() {
    check(&[
        ("(;);)", Either, 0, Token(BLOCK_COMMENT, 5), 5),
        ("(;;);)", Either, 0, Token(BLOCK_COMMENT, 4), 4),
        ("(;;);)", Either, 4, Token(RESERVED, 1), 5),
        ("(;;);)", Either, 5, Token(RPAREN, 1), 6),
        ("(;(;)", Either, 0, Fault(10, NONE, 0), 0),
        ("(;;(;;)", Either, 0, Fault(10, NONE, 0), 0),
        ("(;(;;);)", Either, 0, Token(BLOCK_COMMENT, 8), 8),
        ("(;\"(;\";)", Either, 0, Fault(10, NONE, 0), 0),
        ("(;;;\n;)", Either, 0, Token(BLOCK_COMMENT, 7), 7),
        ("(", Either, 0, Token(LPAREN, 1), 1),
        ("((;;)", Either, 0, Token(LPAREN, 1), 1),
        (";(;;)", Either, 0, Token(RESERVED, 1), 1),
    ]);
}

#[test]
fn runs() {
    check(&[
        // a fault inside a run is the answer, though its beginning would be a token
        (r#"a"b"#, Either, 0, Fault(17, NONE, 3), 3),
        (r#""a""b"#, Either, 0, Fault(17, NONE, 5), 5),
        ("a;;b", Either, 0, Token(KEYWORD, 1), 1),
        ("x,y", Either, 0, Token(KEYWORD, 1), 1),
        ("(@x)", Either, 0, Token(LPAREN, 1), 1),
        ("(@x)", Either, 1, Token(ANNOTATION, 2), 3),
        (" \t\r\n\u{b}", Either, 0, Token(WHITESPACE, 4), 4),
    ]);
    check_whole(&[
        (r#"\"x""#, RESERVED),
        (r#""x"$"#, RESERVED),
        (r#"$$"a""#, RESERVED),
        (r#"$"x""y""#, RESERVED),
        (r#"1"x""#, RESERVED),
        (r#""""#, STRING),
        (r#""é(;""#, STRING),
        (r#"$"a""#, ID),
        (r#"@"a""#, ANNOTATION),
        ("$", ID),
        ("$1", ID),
        ("@", ANNOTATION),
        ("@@", ANNOTATION),
        ("func.$x", KEYWORD),
        ("Func", RESERVED),
        ("_a", RESERVED),
    ]);
}

// Numbers

#[test]
fn numbers_and_what_is_none() {
    check_whole(&[
        ("0x1e5", INTEGER + HEX),
        ("0x1.e", NORMAL + HEX),
        ("0x1.p3", NORMAL + HEX),
        ("0x1p3", NORMAL + HEX),
        ("0xAp-1_0", NORMAL + HEX + UNDERSCORES),
        ("1.e-5", NORMAL),
        ("1e5", NORMAL),
        ("1E+5", NORMAL),
        ("1.5_0", NORMAL + UNDERSCORES),
        ("-1.5", NORMAL),
        ("+1.5", NORMAL),
        ("inf", INF),
        ("+inf", INF),
        ("-inf", INF + MINUS),
        ("nan", NAN),
        ("+nan", NAN),
        ("-nan", NAN + MINUS),
        ("nan:0x1", NAN_VAL),
        ("+nan:0x0", NAN_VAL),
        ("-nan:0xF", NAN_VAL + MINUS),
        ("nan:0x1_0", NAN_VAL + UNDERSCORES),
        ("-nan:0x1_0", NAN_VAL + MINUS + UNDERSCORES),
        ("nan:0x_1", KEYWORD),
        ("nan:0X1", KEYWORD),
        ("nan:0x1__0", KEYWORD),
        ("nan:0x1_", KEYWORD),
        ("nan:1", KEYWORD),
        ("inf_", KEYWORD),
        ("infinity", KEYWORD),
        ("-infinity", RESERVED),
        ("+foo", RESERVED),
        ("+", RESERVED),
        ("+-1", RESERVED),
        ("0x", RESERVED),
        ("0X1", RESERVED),
        ("0x_1", RESERVED),
        ("0x.8", RESERVED),
        (".5", RESERVED),
        ("1_", RESERVED),
        ("1_.5", RESERVED),
        ("1._5", RESERVED),
        ("1.5_", RESERVED),
        ("1e", RESERVED),
        ("1e+", RESERVED),
        ("1e_5", RESERVED),
        ("1e5_", RESERVED),
        ("1e5.", RESERVED),
        ("1p5", RESERVED),
        ("0x1pA", RESERVED),
        ("0x1e+5", RESERVED),
        ("1$x", RESERVED),
    ]);
}

#[test]
fn twelve_kinds_of_integer() {
    for (sign, of_sign) in [("", 0), ("+", PLUS), ("-", MINUS)] {
        for (digits, details) in [("10", 0), ("1_0", UNDERSCORES), ("0x10", HEX), ("0x1_0", HEX + UNDERSCORES)] {
            check_whole(&[(&format!("{sign}{digits}"), INTEGER + of_sign + details)]);
        }
    }
}

// Random texts

#[test]
fn random_texts_have_every_answer_and_no_other() {
    let mut kinds = BTreeSet::new();
    let mut errors = BTreeSet::new();
    let mut strict = BTreeSet::new();
    let mut texts = Texts::new(1);
    for _ in 0..300_000 {
        let text = texts.text(40);
        match Oracle::new(&text, false).parse(0).0 {
            Answer::End => {}
            Answer::Token(token) => _ = kinds.insert(token.kind()),
            Answer::Fault(fault) => _ = errors.insert(fault.number),
        }
        let settings = Settings { strict_digits: true, ..Settings::default() };
        if let Answer::Fault(fault) = Oracle::with_settings(&text, settings).parse(0).0 {
            strict.insert(fault.number);
        }
    }
    let mut all = BTreeSet::from_iter(LINE_COMMENT..=NORMAL);
    for details in [0, UNDERSCORES, HEX, UNDERSCORES + HEX] {
        all.extend([INTEGER, INTEGER + PLUS, INTEGER + MINUS, NORMAL].map(|kind| kind + details));
    }
    all.extend([INF, NAN, NAN_VAL, NAN_VAL + UNDERSCORES].map(|kind| kind + MINUS));
    all.insert(NAN_VAL + UNDERSCORES);
    assert_eq!(kinds, all);
    assert_eq!(errors, BTreeSet::from_iter((10..=21).filter(|number| *number != 15)));
    errors.insert(25);
    assert_eq!(strict, errors);
}
