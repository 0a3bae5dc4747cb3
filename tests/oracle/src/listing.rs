//! The listing call (docs/RULES.md, 10), over the original's `parse`.

use crate::{Answer, Fault, Oracle};

/// The bytes of a record: a length of four and a kind of two, little-endian.
pub const RECORD: usize = 6;

/// The record of a token.
pub fn record(kind: u16, len: u32) -> [u8; RECORD] {
    let mut record = [0; RECORD];
    record[..4].copy_from_slice(&len.to_le_bytes());
    record[4..].copy_from_slice(&kind.to_le_bytes());
    record
}

/// Why a listing stops.
#[derive(Clone, Copy, Debug, PartialEq, Eq)]
pub enum Stop {
    End,
    Budget,
    Fault(Fault),
    /// 33: the list has no room for the next token.
    Full,
}

/// What a listing answers: why it stopped, how many tokens it handed out, and the position.
#[derive(Clone, Copy, Debug, PartialEq, Eq)]
pub struct Listing {
    pub stop: Stop,
    pub count: usize,
    pub position: usize,
}

impl Oracle<'_> {
    /// Writes the records of at most `budget` tokens from `start` on into `list`.
    pub fn list(&self, start: usize, budget: usize, list: &mut [u8]) -> Listing {
        let mut records = list.chunks_exact_mut(RECORD);
        let mut position = start;
        let mut count = 0;
        let stop = loop {
            let (answer, after) = self.parse(position);
            match answer {
                Answer::End => break Stop::End,
                _ if count == budget => break Stop::Budget,
                Answer::Fault(fault) => {
                    position = after;
                    break Stop::Fault(fault);
                }
                Answer::Token(token) => {
                    let Some(place) = records.next() else {
                        break Stop::Full;
                    };
                    place.copy_from_slice(&record(token.kind(), token.len()));
                    count += 1;
                    position = after;
                }
            }
        };
        Listing { stop, count, position }
    }
}
