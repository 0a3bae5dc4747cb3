//! Answers of the original, one to a line, for tests/definitions: `HELP` of the program says what each line has.

use crate::record::wanted;
use oracle::lexer::{LexError, Lexer};
use oracle::listing::{RECORD, record};
use oracle::places::Place;
use oracle::strict::DOUBLE_UNDERSCORE;
use oracle::texts::Texts;
use oracle::values::{NO_READER, READERS, Value};
use oracle::{Answer, Oracle, Settings, numbers, places, utf8};
use std::collections::{BTreeMap, HashSet};

/// The longest text of a row.
const TEXT: usize = 40;

/// The longest buffer that a message is written into.
const BUFFER: usize = 64;

/// Prints so many rows, by random numbers from a seed.
pub type Maker = fn(usize, u64) -> String;

/// The rows with a name.
pub fn maker(name: &str) -> Option<Maker> {
    Some(match name {
        "lex" => |rows, seed| different(rows, seed, lex),
        "utf8" => |rows, seed| different(rows, seed, utf8_check),
        "kinds" => |_, _| kinds(),
        "errors" => |rows, seed| different(rows, seed, error),
        "messages" => |rows, seed| different(rows, seed, message),
        "places" => |rows, seed| different(rows, seed, place),
        "records" => |rows, seed| different(rows, seed, records),
        "readers" => readers,
        _ => return None,
    })
}

/// So many rows, each of which asks something else than those before.
fn different(rows: usize, seed: u64, row: fn(&mut Texts) -> (String, String)) -> String {
    let mut chance = Texts::new(seed);
    let mut seen = HashSet::new();
    let mut out = String::new();
    while seen.len() < rows {
        let (asked, answer) = row(&mut chance);
        let line = format!("{asked} {answer}\n");
        if seen.insert(asked) {
            out += &line;
        }
    }
    out
}

fn lex(chance: &mut Texts) -> (String, String) {
    let text = chance.text(TEXT);
    let position = if chance.below(4) == 0 { chance.boundary(&text) } else { 0 };
    let settings = Settings { allow_confusing: chance.below(3) == 0, strict_digits: chance.below(2) == 0 };
    let named = ["plain", "lenient", "strict", "both"][usize::from(settings.word())];
    let asked = format!("{named} {}", hexadecimal(&text.as_bytes()[position..]));
    let (answer, after) = Oracle::with_settings(&text, settings).parse(position);
    let answer = match answer {
        Answer::End => "end".to_string(),
        Answer::Token(token) => format!("token {} {}", token.kind(), token.len()),
        Answer::Fault(fault) => format!(
            "fault {} {} {} {} {}",
            fault.number,
            fault.data[0],
            fault.data[1],
            fault.place - position,
            after - position
        ),
    };
    (asked, answer)
}

fn utf8_check(chance: &mut Texts) -> (String, String) {
    let bytes = chance.bytes(TEXT);
    let answer = match utf8(&bytes) {
        Ok(_) => "ok".to_string(),
        Err([valid, error]) => format!("bad {valid} {error}"),
    };
    (hexadecimal(&bytes), answer)
}

/// Every kind, by a token of it.
fn kinds() -> String {
    let mut texts: Vec<String> = [";;", "(;;)", " ", "(", ")", "\"\"", "$a", "a", "@a", "A"].map(String::from).to_vec();
    for sign in ["", "+", "-"] {
        texts.extend(["10", "1_0", "0x10", "0x1_0"].map(|digits| sign.to_string() + digits));
    }
    for sign in ["", "-"] {
        texts.extend(["inf", "nan", "nan:0x1", "nan:0x1_0"].map(|name| sign.to_string() + name));
    }
    texts.extend(["1.", "1_0.", "0x1.", "0x1_0."].map(String::from));
    let mut out = String::new();
    for text in texts {
        let token = Lexer::new(&text).parse(&mut 0).ok().flatten().expect("a token");
        out += &format!("{:?} is {}\n", token.kind, numbers::of_kind(token.kind));
    }
    out
}

/// An error of any number, with values that it may have.
fn any_error(chance: &mut Texts) -> LexError {
    let c = chance.any_char();
    match chance.below(14) {
        0 => LexError::DanglingBlockComment,
        1 => LexError::Unexpected(c),
        2 => LexError::InvalidStringElement(c),
        3 => LexError::InvalidStringEscape(c),
        4 => LexError::InvalidHexDigit(c),
        5 => LexError::Expected { wanted: c, found: chance.any_char() },
        6 => LexError::UnexpectedEof,
        7 => LexError::NumberTooBig,
        8 => LexError::InvalidUnicodeValue(chance.any_number()),
        9 => LexError::LoneUnderscore,
        10 => LexError::ConfusingUnicode(chance.near_confusing()),
        11 => loop {
            if let Err(error) = std::str::from_utf8(&chance.bytes(TEXT)) {
                return LexError::InvalidUtf8Id(error);
            }
        },
        12 => LexError::EmptyId,
        _ => LexError::EmptyAnnotation,
    }
}

/// An error, asked for by its name in the original and its values; or the one that the original does not have.
fn error(chance: &mut Texts) -> (String, String) {
    if chance.below(15) == 0 {
        return ("DoubleUnderscore 0 0".to_string(), format!("is {DOUBLE_UNDERSCORE}"));
    }
    let error = any_error(chance);
    let told = format!("{error:?}");
    let name: String = told.chars().take_while(|c| c.is_alphanumeric()).collect();
    let (number, data) = numbers::of_error(&error);
    (format!("{name} {} {}", data[0], data[1]), format!("is {number}"))
}

/// The message of an error that lexing gives, of any error, or of a number and values that may name none.
fn message(chance: &mut Texts) -> (String, String) {
    let (number, data) = match chance.below(4) {
        0 => (chance.below(30) as u8, [chance.any_number(), chance.any_number()]),
        1 => (10 + chance.below(16) as u8, [chance.any_char().into(), chance.any_char().into()]),
        2 => numbers::of_error(&any_error(chance)),
        _ => loop {
            if let (Answer::Fault(fault), _) = Oracle::new(&chance.text(TEXT), false).parse(0) {
                break (fault.number, fault.data);
            }
        },
    };
    let message = numbers::message(number, data);
    let room = match chance.below(4) {
        0 => chance.below(BUFFER + 1),
        1 => message.as_ref().map_or(0, String::len).saturating_sub(chance.below(2)),
        _ => BUFFER,
    };
    let answer = match message {
        None => "none".to_string(),
        Some(message) if message.len() > room => "too-short".to_string(),
        Some(message) => format!("told {}", hexadecimal(message.as_bytes())),
    };
    (format!("{number} {} {} {room}", data[0], data[1]), answer)
}

/// A move over any bytes, line ends among them, a third of them from a place near the limit, and half of them from one
/// behind a CR.
fn place(chance: &mut Texts) -> (String, String) {
    let mut bytes = chance.text(TEXT / 2).into_bytes();
    for _ in 0..chance.below(4) {
        let (at, end) = (chance.below(bytes.len() + 1), ["\n", "\r", "\r\n"][chance.below(3)]);
        bytes.splice(at..at, end.bytes());
    }
    if chance.below(4) == 0 {
        bytes.insert(0, b'\n');
    }
    let mut start = || match chance.below(3) {
        0 => u32::MAX - chance.below(TEXT / 2) as u32,
        1 => 1 + chance.below(300) as u32,
        _ => chance.any_number(),
    };
    let from = Place { line: start(), column: start(), after_cr: chance.below(2) == 0 };
    let told = |Place { line, column, after_cr }| format!("{line} {column} {}", if after_cr { "cr" } else { "other" });
    let answer = places::moved(from, &bytes).map_or("full".to_string(), |to| format!("moved {}", told(to)));
    (format!("{} {}", told(from), hexadecimal(&bytes)), answer)
}

/// The records of a text's tokens, as a listing writes them; or one of a length that no short text has. Texts without a
/// token are passed over.
fn records(chance: &mut Texts) -> (String, String) {
    let text = chance.text(TEXT);
    let oracle = Oracle::new(&text, true);
    let mut tokens = Vec::new();
    let mut position = 0;
    while let (Answer::Token(token), after) = oracle.parse(position) {
        tokens.push(token);
        position = after;
    }
    let [first, ..] = tokens[..] else { return records(chance) };
    if chance.below(4) == 0 {
        let (kind, len) = (first.kind(), chance.any_number());
        return (format!("- {kind} {len}"), format!("has {}", hexadecimal(&record(kind, len))));
    }
    let mut list = [0; TEXT * RECORD];
    let listing = oracle.list(0, TEXT, &mut list);
    let asked: String = tokens.iter().map(|token| format!(" {} {}", token.kind(), token.len())).collect();
    let listed = hexadecimal(&list[..RECORD * listing.count]);
    (hexadecimal(text.as_bytes()) + &asked, format!("has {listed}"))
}

/// What readers leave of tokens, that of names for two of the others. No answer is there more often than one in 24, by the
/// reader, of names by the kind, and by what it answers, and 31 no more often than one in eight, so that the rare ones have
/// their share.
fn readers(rows: usize, seed: u64) -> String {
    let mut chance = Texts::new(seed);
    let (mut seen, mut counts) = (HashSet::new(), BTreeMap::new());
    let mut out = String::new();
    while seen.len() < rows {
        let text = chance.text(TEXT);
        let oracle = Oracle::new(&text, true);
        let offset = if chance.below(3) == 0 { chance.boundary(&text) } else { 0 };
        let (Answer::Token(token), end) = oracle.parse(offset) else { continue };
        let (reader, value, answered) = match READERS.get(chance.below(READERS.len() + 2)) {
            Some(&reader) => (reader.to_string(), Value::read(&oracle, reader, &token), reader),
            None => ("name".to_string(), Value::name(&oracle, &token), NO_READER + usize::from(token.kind())),
        };
        let asked = format!("{reader} {} {offset} {}", token.kind(), hexadecimal(&text.as_bytes()[offset..end]));
        let (answer, number) = match value {
            Value::Absent => ("absent".to_string(), 0),
            Value::Part { start, len } => {
                (format!("part {start} {}", hexadecimal(&text.as_bytes()[start..start + len])), 1)
            }
            Value::Copy(bytes) => (format!("copy {}", hexadecimal(&bytes)), 2),
            Value::Fault(fault, copied) => {
                let [first, second] = fault.data;
                let answer =
                    format!("refused {} {first} {second} {} {}", fault.number, fault.place, hexadecimal(&copied));
                (answer, fault.number.into())
            }
            Value::OtherKind => ("other-kind".to_string(), 31),
        };
        let (key, most) = if number == 31 { ([NO_READER, 31], rows / 8) } else { ([answered, number], rows / 24) };
        if !seen.contains(&asked) && wanted(&mut counts, key, most + 1) {
            out += &format!("{asked} {answer}\n");
            seen.insert(asked);
        }
    }
    out
}

fn hexadecimal(bytes: &[u8]) -> String {
    if bytes.is_empty() {
        return "-".to_string();
    }
    bytes.iter().map(|b| format!("{b:02x}")).collect()
}
