//! The values of integers, asked of the library, of the Rust bindings and of the oracle's model: of literals at the edges, of all of a
//! small grammar, and of random ones, alone and inside a text; `reading.rs` asks for those of every token.

use crate::bindings;
use crate::compare::{Counts, shown};
use crate::ours::{self, Refused, Words, c};
use crate::reading::{nowhere, there};
use oracle::integers::integer;
use oracle::literals;
use oracle::texts::Texts;
use oracle::{Answer, Oracle};

/// What stands before a literal in a longer text, and what behind.
const BEFORE: [&str; 6] = ["(", "é", "\"\\u{41}\" ", ";;0x\n", "(;1;)", "(i32.const "];
const BEHIND: [&str; 6] = [")", " 1", "\n", ";;1", "(;é;)", ",0"];

/// The words of 32 and of 64 bits that the token's literal is: 1 to 4, 30, then 31, then 40.
pub fn expected(bytes: &[u8], token: Words) -> [Result<u64, Refused>; 2] {
    let literal = there(bytes, token).and_then(|(oracle, token)| match token.kind() & 0xff {
        11 => Ok(oracle.src(&token)),
        _ => Err(nowhere(31)),
    });
    [32, 64].map(|bits| integer(literal?, bits).map_err(|_| nowhere(40)))
}

impl Counts {
    /// Compares the two calls for a token, which need not be there.
    pub fn values(&mut self, bytes: &[u8], token: Words) {
        let values = [ours::integer_32(bytes, token), ours::integer_64(bytes, token)];
        assert_eq!(values, expected(bytes, token), "the values, in 32 and 64 bits, of {token:?} in {}", shown(bytes));
        for value in values {
            self.values += 1;
            if let Err(refused) = value {
                *self.value_refusals.entry(refused.number).or_default() += 1;
            }
        }
    }

    /// Compares the calls, and the bindings' methods, for the token at the front of a text: alone, inside another text, and changed into
    /// one that nobody gave.
    fn literal(&mut self, text: &str, chance: &mut Texts) {
        let Answer::Token(token) = Oracle::new(text, true).parse(0).0 else { return };
        let (kind, len) = (u64::from(token.kind()), u64::from(token.len()));
        self.literals += u64::from(kind & 0xff == 11 && len == text.len() as u64);
        let before = BEFORE[chance.below(BEFORE.len())];
        let longer = format!("{before}{text}{}", BEHIND[chance.below(BEHIND.len())]);
        for (text, offset) in [(text, 0), (&longer, before.len())] {
            let token = [kind, offset as u64, len];
            self.values(text.as_bytes(), token);
            self.items += bindings::values(text, token);
        }
        let mut forged = [kind, before.len() as u64, len];
        match chance.below(8) {
            0 => forged[0] ^= 1 << chance.below(13),
            1 => forged[0] = chance.below(16) as u64,
            2 => forged[1] += 1,
            3 => forged[1] -= 1,
            4 => forged[2] += 1,
            5 => forged[2] -= 1,
            6 => forged[2] |= 1 << (32 + chance.below(32)),
            _ => forged[1] = longer.len() as u64 + chance.below(3) as u64,
        }
        self.values(longer.as_bytes(), forged);
    }

    /// Compares the literals of one share, all of those of the grammar of up to `most` symbols, and so many random ones.
    pub fn literals(&mut self, (which, shares): (u64, u64), most: usize, random: u64, seed: u64) {
        // other random numbers than those of the share's texts
        let mut chance = Texts::new(!seed.wrapping_mul(shares).wrapping_add(which));
        let mut turn = 0;
        let mut each = |text: &str, counts: &mut Counts, chance: &mut Texts| {
            if turn % shares == which {
                counts.literal(text, chance);
            }
            turn += 1;
        };
        for (literal, _) in literals::edges() {
            each(&literal, self, &mut chance);
        }
        literals::grammar(most, &mut |text| each(text, self, &mut chance));
        for _ in (which..random).step_by(shares as usize) {
            let literal = literals::random(&mut chance);
            self.literal(&literal, &mut chance);
        }
    }
}

/// A text, a token's words, and the number by which both calls refuse it, where a later one would hold too.
const ORDER: [(&[u8], Words, u64); 8] = [
    (b"a\xff", [c::KIND_INTEGER, 9, 1], c::NOT_UTF8),
    (b"\xc3\xa9\xff", [c::KIND_INTEGER, 1, 1], c::NOT_UTF8),
    (b"18446744073709551616", [c::KIND_INTEGER, 21, 20], c::PAST_END),
    (b"\xc3\xa91", [c::KIND_INTEGER, 1, 1], c::INSIDE_CHARACTER),
    (b"18446744073709551616", [c::KIND_KEYWORD, 0, 20], c::NOT_THAT_TOKEN),
    (b"18446744073709551616", [c::KIND_INTEGER, 0, 19], c::NOT_THAT_TOKEN),
    (b"18446744073709551616.", [c::KIND_NORMAL, 0, 21], c::NOT_THAT_KIND),
    (b"18446744073709551616_", [c::KIND_RESERVED, 0, 21], c::NOT_THAT_KIND),
];

/// The order of the refusals, and 1, which takes a text of its own.
pub fn limits(counts: &mut Counts) {
    for (text, token, number) in ORDER {
        let refused = ours::integer_64(text, token).map_err(|refused| refused.number);
        assert_eq!(refused, Err(number), "the refusal of {token:?} in {}", shown(text));
        counts.values(text, token);
    }
    let mut text = vec![b'0'; c::MAX_TEXT as usize + 1];
    for (last, offset, len) in [(b'1', 3, 1), (b'1', u64::MAX, 1), (0xff, 0, u64::MAX)] {
        *text.last_mut().expect("a long text") = last;
        let long = Err(Refused { number: c::TOO_LONG, values: [0, 0], place: offset });
        let token = [c::KIND_INTEGER, offset, len];
        assert_eq!([ours::integer_32(&text, token), ours::integer_64(&text, token)], [long, long]);
    }
    // the longest literal: zeros, and a 1
    text.pop();
    *text.last_mut().expect("a long text") = b'1';
    let whole = [c::KIND_INTEGER, 0, c::MAX_TEXT];
    assert_eq!([ours::integer_32(&text, whole), ours::integer_64(&text, whole)], [Ok(1), Ok(1)]);
}
