//! Readers and messages, asked of both sides: of tokens that are there, and of tokens, numbers and answers that nobody gave.

use crate::compare::{self, CANARY, Counts, MARGIN, shown};
use crate::ours::{self, Reading, Refused, Words};
use crate::places;
use oracle::lexer::SignToken;
use oracle::readers::Token;
use oracle::texts::Texts;
use oracle::values::{NO_READER, Value};
use oracle::{Answer, Oracle, numbers};

pub fn nowhere(number: u64) -> Refused {
    Refused { number, values: [0, 0], place: 0 }
}

/// The token that the words name, if lexing with the flag on gives it: 1 to 4, then 30.
pub fn there<'a>(bytes: &'a [u8], [kind, offset, len]: Words) -> Result<(Oracle<'a>, Token), Refused> {
    let text = compare::turned(bytes, offset as usize)?;
    let oracle = Oracle::new(text, true);
    match oracle.parse(offset as usize).0 {
        Answer::Token(token) if u64::from(token.kind()) == kind && u64::from(token.len()) == len => Ok((oracle, token)),
        _ => Err(nowhere(30)),
    }
}

pub fn expected_reading(bytes: &[u8], reader: u64, token: Words, buffer: &mut [u8]) -> Reading {
    match there(bytes, token) {
        Err(refused) => Reading::Refused(refused),
        Ok((oracle, token)) => {
            handed(Value::read(&oracle, usize::try_from(reader).unwrap_or(NO_READER), &token), buffer)
        }
    }
}

/// A value handed over: 31, then 32, then 22 to 24.
pub fn handed(value: Value, buffer: &mut [u8]) -> Reading {
    let mut copied = |bytes: &[u8]| {
        let room = buffer.get_mut(..bytes.len())?;
        room.copy_from_slice(bytes);
        Some(())
    };
    let short = Reading::Refused(nowhere(32));
    match value {
        Value::OtherKind => Reading::Refused(nowhere(31)),
        Value::Absent => Reading::Absent,
        Value::Part { start, len } => Reading::Text { start: start as u64, len: len as u64 },
        Value::Copy(bytes) => copied(&bytes).map_or(short, |()| Reading::Buffer { start: 0, len: bytes.len() as u64 }),
        Value::Fault(fault, bytes) => copied(&bytes).map_or(short, |()| Reading::Refused(compare::passed_on(fault))),
    }
}

/// What the second call makes of an answer, by its rule.
fn expected_part(text: &[u8], buffer: &[u8], answer: [u64; 5]) -> [u64; 3] {
    let [what, start, len, ..] = answer;
    let whole = match what {
        1 => text.len() as u64,
        3 => buffer.len() as u64,
        _ => return [0, 0, 0],
    };
    if start <= whole && len <= whole - start { [what, start, len] } else { [0, 0, 0] }
}

impl Counts {
    /// Every reader of a token, and numbers that no reader has, with a buffer as long as the token, with one that may be too short, and of
    /// the token alone; its name, signs and values, and the place counter over it.
    pub fn readers(&mut self, bytes: &[u8], token: Words, chance: &mut Texts) {
        let [kind, offset, len] = token;
        let own = (offset as usize).checked_add(len as usize).and_then(|end| bytes.get(offset as usize..end));
        for reader in 0..=NO_READER as u64 {
            self.reading(bytes, reader, token, len.min(1000) as usize);
            self.reading(bytes, reader, token, chance.below(len.min(1000) as usize + 1));
            if let Some(own) = own {
                self.reading(own, reader, [kind, 0, len], own.len());
            }
        }
        self.names(bytes, token, chance);
        let expected = there(bytes, token).and_then(|(oracle, token)| match oracle.integer(&token) {
            None => Err(nowhere(31)),
            Some(integer) => Ok(Some(match integer.sign {
                None => 0,
                Some(SignToken::Plus) => 1,
                Some(SignToken::Minus) => 2,
            })),
        });
        assert_eq!(ours::integer_sign(bytes, token), expected, "integer's sign of {token:?} in {}", shown(bytes));
        let expected = there(bytes, token).and_then(|(oracle, token)| match oracle.float(&token) {
            None => Err(nowhere(31)),
            Some(float) => Ok(float.negative.map(u64::from)),
        });
        assert_eq!(ours::float_sign(bytes, token), expected, "float's sign of {token:?} in {}", shown(bytes));
        self.signs += 2;
        self.values(bytes, token);
        if let Some(own) = own {
            self.values(own, [kind, 0, len]);
            self.moved([1, 1, 0], own);
            self.moved(places::near(chance), own);
        }
    }

    /// Compares a reader's two calls: the answer, every byte of the buffer, the bytes around it, and the part.
    fn reading(&mut self, bytes: &[u8], reader: u64, token: Words, room: usize) {
        let mut buffer = vec![CANARY; room + 2 * MARGIN];
        let mut expected_buffer = buffer.clone();
        let expected = expected_reading(bytes, reader, token, &mut expected_buffer[MARGIN..MARGIN + room]);
        let reading = ours::read(bytes, reader, token, &mut buffer[MARGIN..MARGIN + room]);
        let asked = || format!("reader {reader} of {token:?} in {}, room {room}", shown(bytes));
        assert_eq!(reading, expected, "{}", asked());
        assert!(buffer == expected_buffer, "bytes of the buffer: {}", asked());
        self.readings += 1;
        if let Reading::Refused(refused) = reading {
            *self.refusals.entry(refused.number).or_default() += 1;
        }
        self.second(bytes, &buffer[MARGIN..MARGIN + room], reading);
    }

    /// Compares the second call for what a first one answered.
    pub fn second(&mut self, text: &[u8], buffer: &[u8], reading: Reading) {
        let answer = match reading {
            Reading::Absent => [0; 5],
            Reading::Text { start, len } => [1, start, len, 0, 0],
            Reading::Buffer { start, len } => [3, start, len, 0, 0],
            Reading::Refused(Refused { number, values, place }) => [2, number, place, values[0], values[1]],
        };
        self.part(text, buffer, answer);
    }

    pub fn part(&mut self, text: &[u8], buffer: &[u8], answer: [u64; 5]) {
        let expected = expected_part(text, buffer, answer);
        assert_eq!(
            ours::part(text, buffer, answer),
            expected,
            "part {answer:?} of {} and {}",
            text.len(),
            buffer.len()
        );
        self.parts += 1;
    }

    /// Compares the message of an error, with a buffer of some size.
    pub fn message(&mut self, number: u64, values: [u64; 2], room: usize) {
        let mut buffer = vec![CANARY; room + 2 * MARGIN];
        let mut expected_buffer = buffer.clone();
        // how many values of 32 bits the error carries; no message tells the lengths of 22
        let carried = match number {
            11..=14 | 19 | 21 => 1,
            16 => 2,
            _ => 0,
        };
        let value = |i: usize| if i < carried { u32::try_from(values[i]).ok() } else { Some(0) };
        let told = match (u8::try_from(number), value(0), value(1)) {
            (Ok(number), Some(first), Some(second)) => numbers::message(number, [first, second]),
            _ => None,
        };
        let expected = match told {
            None => Err(34),
            Some(text) if text.len() > room => Err(32),
            Some(text) => {
                expected_buffer[MARGIN..][..text.len()].copy_from_slice(text.as_bytes());
                Ok(text.len() as u64)
            }
        };
        let message = ours::message(number, values, &mut buffer[MARGIN..MARGIN + room]);
        assert_eq!(message, expected, "message of {number}, {values:?}, room {room}");
        assert!(buffer == expected_buffer, "bytes of the message of {number}, {values:?}, room {room}");
        self.messages += 1;
    }

    /// What nobody gave: a token, an answer and an error made up near to what is there.
    pub fn made_up(&mut self, bytes: &[u8], chance: &mut Texts) {
        let wide = |chance: &mut Texts, small: usize| match chance.below(8) {
            0 => u64::MAX - chance.below(3) as u64,
            1 => (1 << 32) + chance.below(small) as u64,
            _ => chance.below(small) as u64,
        };
        let kind = [0, 256, 512, 768, 1024, 2048, 3072, 65536][chance.below(8)] + chance.below(17) as u64;
        let token = [kind, wide(chance, bytes.len() + 2), wide(chance, bytes.len() + 2)];
        let reader = wide(chance, 12);
        self.reading(bytes, reader, token, chance.below(9));
        self.name(bytes, token, chance.below(9));
        self.values(bytes, token);
        let buffer = vec![CANARY; chance.below(9)];
        let answer = [wide(chance, 5), wide(chance, 9), wide(chance, 9), wide(chance, 9), wide(chance, 9)];
        self.part(bytes, &buffer, answer);
        let value = |chance: &mut Texts| match chance.below(4) {
            0 => 0xd7ff + wide(chance, 0x802),
            1 => 0x10fffe + wide(chance, 4),
            2 => 0x2028 + wide(chance, 0x46),
            _ => wide(chance, 0x100),
        };
        let values = [value(chance), value(chance)];
        self.message(wide(chance, 40), values, chance.below(65));
    }
}
