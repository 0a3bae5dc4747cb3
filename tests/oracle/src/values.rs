//! What the readers leave of a token, by their numbers (include/thallusweb.h), and the reader of names, which has none, as
//! rule 11 has it: a part of the text where the original's `Cow` is borrowed, a copy where it is owned.

use crate::readers::Token;
use crate::{Answer, Fault, Oracle};
use std::borrow::Cow;

/// The numbers of the readers.
pub const READERS: [usize; 7] = [0, 1, 4, 5, 6, 7, 8];

/// The first number behind them, which no reader has.
pub const NO_READER: usize = 9;

/// Those of ids and of annotations before they had a call of their own: no reader has them.
pub const RETIRED: [usize; 2] = [2, 3];

/// What a reader leaves of a token.
pub enum Value {
    Absent,
    Part {
        start: usize,
        len: usize,
    },
    Copy(Vec<u8>),
    /// an error, and what was copied before it was found
    Fault(Fault, Vec<u8>),
    OtherKind,
}

impl Value {
    fn bytes(text: &str, cow: Cow<[u8]>) -> Value {
        match cow {
            Cow::Borrowed(part) => Value::Part { start: part.as_ptr().addr() - text.as_ptr().addr(), len: part.len() },
            Cow::Owned(bytes) => Value::Copy(bytes),
        }
    }

    fn spelling(text: &str, cow: Cow<str>) -> Value {
        match cow {
            Cow::Borrowed(part) => Value::bytes(text, Cow::Borrowed(part.as_bytes())),
            Cow::Owned(copy) => Value::Copy(copy.into_bytes()),
        }
    }

    /// What the original's reader for the token's kind leaves of an Id or of an Annotation: what stands behind the first
    /// byte, decoded if it is quoted.
    pub fn name(oracle: &Oracle, token: &Token) -> Value {
        let text = oracle.text();
        let fault = match oracle.name(token) {
            None => return Value::OtherKind,
            Some(Ok(name)) => return Value::spelling(text, name),
            Some(Err(fault)) => fault,
        };
        let alone = Oracle::new(&text[token.offset() + 1..][..token.len() as usize - 1], true);
        let decoded = match alone.parse(0).0 {
            Answer::Token(quoted) if fault.number == 22 => alone.string(&quoted).map(Cow::into_owned),
            _ => None,
        };
        Value::Fault(fault, decoded.unwrap_or_default())
    }

    /// What the reader with a number leaves of a token of the text.
    pub fn read(oracle: &Oracle, reader: usize, token: &Token) -> Value {
        let text = oracle.text();
        let value = match reader {
            0 => Some(Value::spelling(text, Cow::Borrowed(oracle.src(token)))),
            1 => oracle.string(token).map(|bytes| Value::bytes(text, bytes)),
            4 => oracle.integer(token).map(|integer| Value::spelling(text, integer.digits)),
            5..NO_READER => oracle.float(token).map(|float| {
                let part = [float.integral, float.fraction, float.exponent, float.payload].into_iter().nth(reader - 5);
                part.flatten().map_or(Value::Absent, |part| Value::spelling(text, part))
            }),
            _ => None,
        };
        value.unwrap_or(Value::OtherKind)
    }
}
