//! Answers of the Rust, recorded for the program of crates/replay; the first comment of crates/replay_rows has the layout of a row.

use oracle::listing::Stop;
use oracle::names;
use oracle::readers::Token;
use oracle::texts::Texts;
use oracle::values::{NO_READER, RETIRED, Value};
use oracle::{Answer, Fault, Oracle, Settings, numbers, utf8};
use std::collections::BTreeMap;

const ROW: usize = 152;
const TEXT: usize = 40;
/// The longest list or buffer that is lent.
const LENT: usize = 64;
/// What stands in a lent list or buffer where nothing was written.
const UNTOUCHED: u8 = 238;

/// What is recorded of an answer: seven numbers, a message, and the lent list or buffer afterwards.
#[derive(Default)]
struct Recorded {
    numbers: [usize; 7],
    message: String,
    lent: Vec<u8>,
}

impl Recorded {
    /// With its message, which is empty where a message is refused, as for 25.
    fn refused(number: u8, data: [u32; 2], place: usize) -> Recorded {
        let numbers = [2, number.into(), place, data[0] as usize, data[1] as usize, 0, 0];
        Recorded { numbers, message: numbers::message(number, data).unwrap_or_default(), lent: Vec::new() }
    }

    fn fault(fault: Fault) -> Recorded {
        Recorded::refused(fault.number, fault.data, fault.place)
    }

    fn token(kind: u16, offset: usize, len: u32) -> Recorded {
        Recorded { numbers: [1, kind.into(), offset, len as usize, 0, 0, 0], ..Recorded::default() }
    }

    /// A part of the text, 1, or of the buffer, 3; of a name, the kind of token that has it.
    fn part(what: usize, start: usize, len: usize, whose: usize) -> Recorded {
        Recorded { numbers: [what, start, len, 0, 0, 0, whose], ..Recorded::default() }
    }
}

struct Question<'a> {
    bytes: &'a [u8],
    settings: Settings,
    position: usize,
    budget: usize,
    room: usize,
}

/// The text, or refusal 2, 3 or 4.
fn text_at(bytes: &[u8], position: usize) -> Result<&str, Recorded> {
    let text = utf8(bytes).map_err(|data| Recorded::refused(2, data, data[0] as usize))?;
    match position {
        position if position > text.len() => Err(Recorded::refused(3, [0, 0], position)),
        position if !text.is_char_boundary(position) => Err(Recorded::refused(4, [0, 0], position)),
        _ => Ok(text),
    }
}

/// A row: the first four bytes, then the position and the budget, or what stands there.
fn row(head: [u8; 4], asked: [usize; 2], answer: &Recorded, text: &[u8]) -> Vec<u8> {
    let mut row = head.to_vec();
    for number in asked.into_iter().chain(answer.numbers) {
        row.extend(u32::try_from(number).expect("a number of 32 bits").to_le_bytes());
    }
    row.push(answer.message.len() as u8);
    row.resize(48, 0);
    row.extend(text);
    row.resize(88, 0);
    row.extend(answer.message.bytes());
    row.extend(&answer.lent);
    row.resize(ROW, 0);
    row
}

impl Question<'_> {
    fn text(&self) -> Result<&str, Recorded> {
        text_at(self.bytes, self.position)
    }

    fn parse(&self) -> Recorded {
        let (mut recorded, after) = match self.text() {
            Err(refused) => (refused, self.position),
            Ok(text) => {
                let (answer, after) = Oracle::with_settings(text, self.settings).parse(self.position);
                let recorded = match answer {
                    Answer::End => Recorded::default(),
                    Answer::Token(token) => Recorded::token(token.kind(), self.position, token.len()),
                    Answer::Fault(fault) => Recorded::fault(fault),
                };
                (recorded, after)
            }
        };
        recorded.numbers[5] = after;
        recorded
    }

    fn annotation(&self) -> Recorded {
        match utf8(self.bytes) {
            Err(data) => Recorded::refused(2, data, data[0] as usize),
            Ok(text) => match Oracle::with_settings(text, self.settings).annotation(self.position) {
                Ok(None) => Recorded::default(),
                Ok(Some(token)) => Recorded::token(token.kind(), self.position, token.len()),
                Err(fault) => Recorded::fault(fault),
            },
        }
    }

    fn list(&self) -> Recorded {
        let mut list = vec![UNTOUCHED; LENT];
        let mut recorded = match self.text() {
            Err(mut refused) => {
                refused.numbers[6] = self.position;
                refused
            }
            Ok(text) => {
                let listing =
                    Oracle::with_settings(text, self.settings).list(self.position, self.budget, &mut list[..self.room]);
                let mut recorded = match listing.stop {
                    Stop::End => Recorded::default(),
                    Stop::Budget => Recorded { numbers: [1, 0, 0, 0, 0, 0, 0], ..Recorded::default() },
                    Stop::Fault(fault) => Recorded::fault(fault),
                    Stop::Full => Recorded { numbers: [3, 33, 0, 0, 0, 0, 0], ..Recorded::default() },
                };
                recorded.numbers[5] = listing.count;
                recorded.numbers[6] = listing.position;
                recorded
            }
        };
        recorded.message.clear();
        recorded.lent = list;
        recorded
    }

    fn row(&self, kind: u8, answer: &Recorded) -> Vec<u8> {
        let head = [kind, self.settings.word(), self.bytes.len() as u8, self.room as u8];
        row(head, [self.position, self.budget], answer, self.bytes)
    }
}

/// What is asked of a token.
#[derive(Clone, Copy)]
enum Call {
    /// a reader's first call
    Reader(usize),
    Name,
}

struct Reading<'a> {
    bytes: &'a [u8],
    call: Call,
    kind: usize,
    offset: usize,
    len: usize,
    room: usize,
}

/// Kind and length of the token at an offset, or any.
fn token_at(bytes: &[u8], offset: usize, chance: &mut Texts) -> (usize, usize) {
    let found = match text_at(bytes, offset) {
        Ok(text) => Oracle::new(text, true).parse(offset).0,
        Err(_) => Answer::End,
    };
    match found {
        Answer::Token(token) => (token.kind().into(), token.len() as usize),
        _ => (1 + chance.below(15), chance.below(bytes.len() + 1)),
    }
}

impl<'a> Reading<'a> {
    /// Of a token that is there, most often by a reader that takes its kind, or took it; now and then of one that nobody
    /// gave.
    fn any(bytes: &'a [u8], chance: &mut Texts) -> Reading<'a> {
        let mut offset = if chance.below(2) == 0 { 0 } else { chance.boundary(&String::from_utf8_lossy(bytes)) };
        let (mut kind, mut len) = token_at(bytes, offset, chance);
        match chance.below(24) {
            0 => kind ^= 1 << chance.below(17),
            1 => offset = chance.below(bytes.len() + 3),
            2 => len = chance.below(bytes.len() + 3),
            _ => {}
        }
        let taking: &[usize] = match kind & 0xff {
            6 => &[1],
            7 => &RETIRED[..1],
            9 => &RETIRED[1..],
            11 => &[4],
            12..=15 => &[5, 6, 7, 8],
            _ => &[0],
        };
        let reader =
            if chance.below(6) == 0 { chance.below(NO_READER + 1) } else { taking[chance.below(taking.len())] };
        let room = match chance.below(3) {
            0 => len,
            1 => chance.below(len + 1),
            _ => chance.below(LENT + 1),
        };
        Reading { bytes, call: Call::Reader(reader), kind, offset, len, room }
    }

    /// The name of the token at an offset, with a buffer that just holds a copy, that just does not, or another; now and
    /// then of a token that nobody gave, the other of the two that have a name among these.
    fn name(bytes: &'a [u8], mut offset: usize, chance: &mut Texts) -> Reading<'a> {
        let (mut kind, mut len) = token_at(bytes, offset, chance);
        let there = Reading { bytes, call: Call::Name, kind, offset, len, room: LENT };
        let copied = match there.there().map(|(oracle, token)| Value::name(&oracle, &token)) {
            Ok(Value::Copy(bytes) | Value::Fault(_, bytes)) => bytes.len(),
            _ => 0,
        };
        let room = match chance.below(6) {
            0 => copied,
            1 => copied.saturating_sub(1),
            2 => copied + 1,
            3 => len,
            4 => chance.below(copied + 1),
            _ => chance.below(LENT + 1),
        };
        match chance.below(16) {
            0..=2 if kind == 7 || kind == 9 => kind = 16 - kind,
            3 => kind ^= 1 << chance.below(17),
            4 => offset = chance.below(bytes.len() + 3),
            5 => len = chance.below(bytes.len() + 3),
            _ => {}
        }
        Reading { kind, offset, len, room: room.min(LENT), ..there }
    }

    fn refused(number: u8) -> Recorded {
        Recorded::refused(number, [0, 0], 0)
    }

    /// The token that is asked for, if lexing with the flag on gives it.
    fn there(&self) -> Result<(Oracle<'_>, Token), Recorded> {
        let oracle = Oracle::new(text_at(self.bytes, self.offset)?, true);
        match oracle.parse(self.offset).0 {
            Answer::Token(token) if usize::from(token.kind()) == self.kind && token.len() as usize == self.len => {
                Ok((oracle, token))
            }
            _ => Err(Reading::refused(30)),
        }
    }

    fn read(&self, buffer: &mut [u8]) -> Recorded {
        let (oracle, token) = match self.there() {
            Err(refused) => return refused,
            Ok(there) => there,
        };
        let (value, whose) = match self.call {
            Call::Reader(reader) => (Value::read(&oracle, reader, &token), 0),
            Call::Name => (Value::name(&oracle, &token), token.kind().into()),
        };
        let (bytes, answer) = match value {
            Value::Absent => return Recorded::default(),
            Value::OtherKind => return Reading::refused(31),
            Value::Part { start, len } => return Recorded::part(1, start, len, whose),
            Value::Copy(bytes) => {
                let len = bytes.len();
                (bytes, Recorded::part(3, 0, len, whose))
            }
            Value::Fault(fault, bytes) => (bytes, Recorded::fault(fault)),
        };
        match buffer.get_mut(..bytes.len()) {
            None => Reading::refused(32),
            Some(front) => {
                front.copy_from_slice(&bytes);
                answer
            }
        }
    }

    fn answer(&self) -> Recorded {
        let mut buffer = vec![UNTOUCHED; LENT];
        let mut recorded = self.read(&mut buffer[..self.room]);
        recorded.numbers[5] = self.len;
        recorded.message.clear();
        recorded.lent = buffer;
        recorded
    }

    fn row(&self, answer: &Recorded) -> Vec<u8> {
        let (kind, reader) = match self.call {
            Call::Reader(reader) => (4, reader as u8),
            Call::Name => (5, 0),
        };
        let head = [kind, reader, self.bytes.len() as u8, self.room as u8];
        row(head, [self.offset, self.kind], answer, self.bytes)
    }
}

/// Whether an answer is to be recorded: none is more than `most` times.
pub fn wanted(seen: &mut BTreeMap<[usize; 2], usize>, answer: [usize; 2], most: usize) -> bool {
    let count = seen.entry(answer).or_default();
    *count += 1;
    *count <= most
}

/// One in twelve is a byte string, and one in twelve has a pair of underscores.
fn any_text(chance: &mut Texts) -> Vec<u8> {
    match chance.below(12) {
        0 => chance.bytes(TEXT),
        1 => loop {
            let text = chance.text(TEXT);
            if text.contains("__") {
                return text.into_bytes();
            }
        },
        _ => chance.text(TEXT).into_bytes(),
    }
}

/// An Id or an Annotation, or what misses one, alone or between other tokens, and where it begins; one in twelve is another
/// text, and one in twelve no UTF-8.
fn any_name(chance: &mut Texts) -> (Vec<u8>, usize) {
    let before = ["", "", "", "(", "é", ";;é\n"][chance.below(6)];
    let behind = ["", "", ")", " $x", "(;", "\""][chance.below(6)];
    let mut text = format!("{before}{}{behind}", names::random(chance)).into_bytes();
    match chance.below(12) {
        0 => return (chance.text(TEXT).into_bytes(), 0),
        1 => text.push(0xff),
        _ => {}
    }
    if text.len() <= TEXT { (text, before.len()) } else { any_name(chance) }
}

/// Rows for random texts and byte strings: five of seven are of lexing, one in 14 of names, the rest of readers. Then rows
/// that must differ.
pub fn rows(rows: usize, seed: u64) -> Vec<u8> {
    let (readings, names) = (rows * 3 / 14, rows / 14);
    let mut chance = Texts::new(seed);
    let mut out = lexing_rows(rows - readings - names, &mut chance);
    out.extend(reading_rows(readings, &mut chance));
    out.extend(name_rows(names, &mut chance));
    out.extend(damaged_rows(&out));
    out
}

/// Rows that must differ, so that a comparison which is left out shows: copies with one number or byte of the answer changed, whose
/// type has 128 added. Of each type three rows for each number, and for the first and the last byte of what else is compared.
fn damaged_rows(rows: &[u8]) -> Vec<u8> {
    let mut out = Vec::new();
    // the numbers of a row's answer that are compared: of types 4 and 5 the sixth is asked
    let compared: [(u8, &[usize], bool); 5] = [
        (1, &[0, 1, 2, 3, 4, 5], false),
        (2, &[0, 1, 2, 3, 4], false),
        (3, &[0, 1, 2, 3, 4, 5, 6], true),
        (4, &[0, 1, 2, 3, 4], true),
        (5, &[0, 1, 2, 3, 4, 6], true),
    ];
    for (kind, numbers, lent) in compared {
        let of_kind: Vec<_> = rows.chunks_exact(ROW).filter(|row| row[0] == kind).collect();
        let told: Vec<_> = of_kind.iter().copied().filter(|row| row[40] != 0).collect();
        let mut damage = |rows: &[&[u8]], at: usize| {
            for i in [0, rows.len() / 2, rows.len().saturating_sub(1)] {
                let Some(&row) = rows.get(i) else { continue };
                let mut row = row.to_vec();
                row[0] |= 128;
                row[at] ^= 1;
                out.extend(row);
            }
        };
        for number in numbers {
            damage(&of_kind, 12 + 4 * number);
        }
        if lent {
            damage(&of_kind, ROW - LENT);
            damage(&of_kind, ROW - 1);
        } else {
            damage(&told, 40);
            damage(&told, ROW - LENT);
        }
    }
    out
}

/// No answer of one token is recorded more than a fortieth of the times, by its kind or number, so that the rare ones have
/// their share.
fn lexing_rows(rows: usize, chance: &mut Texts) -> Vec<u8> {
    let mut seen = BTreeMap::new();
    let mut out = Vec::new();
    for number in 0.. {
        if out.len() / ROW >= rows {
            break;
        }
        let text = any_text(chance);
        let position = match chance.below(4) {
            0 => chance.below(text.len() + 3),
            1 => chance.boundary(&String::from_utf8_lossy(&text)),
            _ => 0,
        };
        let settings = Settings { allow_confusing: chance.below(3) == 0, strict_digits: chance.below(2) == 0 };
        let question =
            Question { bytes: &text, settings, position, budget: chance.below(12), room: chance.below(LENT + 1) };
        let answer = question.parse();
        if !wanted(&mut seen, [answer.numbers[0], answer.numbers[1] & 0xff], rows / 40 + 1) {
            continue;
        }
        out.extend(question.row(1, &answer));
        if number % 2 == 0 {
            out.extend(question.row(3, &question.list()));
        }
        if text.contains(&b'@') || number % 8 == 1 {
            let position = text.iter().position(|byte| *byte == b'@').unwrap_or(question.position);
            let question = Question { position, ..question };
            out.extend(question.row(2, &question.annotation()));
        }
    }
    // a text may have led to a row or two too many
    out.truncate(rows * ROW);
    out
}

/// No answer is recorded more often than one in 26: a value by the reader and by where its bytes are, a refusal by its
/// number, 32 by the reader too, and 31 apart for the numbers that were readers'.
fn reading_rows(rows: usize, chance: &mut Texts) -> Vec<u8> {
    let mut seen = BTreeMap::new();
    let mut out = Vec::new();
    while out.len() / ROW < rows {
        let text = any_text(chance);
        let reading = Reading::any(&text, chance);
        let Call::Reader(reader) = reading.call else { continue };
        let answer = reading.answer();
        let key = match answer.numbers {
            [2, 31, ..] if RETIRED.contains(&reader) => [RETIRED[0], 31],
            [2, number @ (2..=4 | 30 | 31), ..] => [NO_READER, number],
            [2, number, ..] => [reader, number],
            [what, ..] => [reader, what],
        };
        if wanted(&mut seen, key, rows / 26 + 1) {
            out.extend(reading.row(&answer));
        }
    }
    out
}

/// No answer is recorded more often than one in twelve: a name by its token's kind and by where its bytes are, a refusal by
/// its number, and 22 and 32 by the token's kind too.
fn name_rows(rows: usize, chance: &mut Texts) -> Vec<u8> {
    let mut seen = BTreeMap::new();
    let mut out = Vec::new();
    while out.len() / ROW < rows {
        let (text, offset) = any_name(chance);
        let reading = Reading::name(&text, offset, chance);
        let answer = reading.answer();
        let key = match answer.numbers {
            [2, number @ (2..=4 | 30 | 31), ..] => [0, number],
            [2, number, ..] => [reading.kind, number],
            [what, ..] => [reading.kind, what],
        };
        if wanted(&mut seen, key, rows / 12 + 1) {
            out.extend(reading.row(&answer));
        }
    }
    out
}
