//! The names of ids and annotations, asked of the library's one call for both, of the Rust bindings and of the original's reader for the
//! token's kind: of all names of a small grammar, and of random ones, alone and inside a text; `reading.rs` asks for those of every token.

use crate::bindings;
use crate::compare::{CANARY, Counts, MARGIN, shown};
use crate::ours::{self, Reading, Refused, Words, c};
use crate::reading::{handed, there};
use oracle::names::{self, Sort};
use oracle::texts::Texts;
use oracle::values::Value;
use oracle::{Answer, Oracle};

/// What stands before a name in a longer text, and what behind.
const BEFORE: [&str; 6] = ["(", "é", "\"\\u{41}\" ", ";;$\n", "(;@;)", "(@x $y "];
const BEHIND: [&str; 6] = [")", " $x", "\n", ";;@", "(;é;)", ",a"];

/// A token of up to so many bytes is asked for its name with buffers of every size.
const SHORT: u64 = 64;

/// All refusals but 1, which takes a text of its own.
pub const REFUSALS: [u64; 9] = [2, 3, 4, 22, 23, 24, 30, 31, 32];

/// The name of a token by the original's reader for its kind: 1 to 4, 30, 31, 32, then 22 to 24; and the number of that kind, by the
/// original's token, 0 for a refusal.
pub fn expected(bytes: &[u8], token: Words, buffer: &mut [u8]) -> (Reading, u64) {
    let (oracle, token) = match there(bytes, token) {
        Err(refused) => return (Reading::Refused(refused), 0),
        Ok(there) => there,
    };
    match handed(Value::name(&oracle, &token), buffer) {
        Reading::Refused(refused) => (Reading::Refused(refused), 0),
        name => (name, token.kind().into()),
    }
}

/// Tokens near to one that is there, and that nobody gave: of every other kind, with flags, with bits that no kind has, and with another
/// offset or length.
fn forged([kind, offset, len]: Words, chance: &mut Texts) -> Vec<Words> {
    let mut forged: Vec<Words> =
        (0..=c::KIND_NORMAL + 1).filter(|other| *other != kind).map(|other| [other, offset, len]).collect();
    let flags = (1 + chance.below(15) as u64) * c::KIND_PLUS;
    for kind in [kind | flags, chance.below(16) as u64 | flags, kind | 1 << (12 + chance.below(52))] {
        forged.push([kind, offset, len]);
    }
    for offset in [offset + 1, offset.wrapping_sub(1), offset | 1 << (32 + chance.below(32)), u64::MAX] {
        forged.push([kind, offset, len]);
    }
    for len in [0, len + 1, len - 1, len | 1 << (32 + chance.below(32)), u64::MAX] {
        forged.push([kind, offset, len]);
    }
    forged
}

impl Counts {
    /// Compares the call for a token, which need not be there: all words, every byte of the buffer, the bytes around it, and the part.
    pub fn name(&mut self, bytes: &[u8], token: Words, room: usize) {
        let mut buffer = vec![CANARY; room + 2 * MARGIN];
        let mut expected_buffer = buffer.clone();
        let expected = expected(bytes, token, &mut expected_buffer[MARGIN..MARGIN + room]);
        let named = ours::name(bytes, token, &mut buffer[MARGIN..MARGIN + room]);
        let asked = || format!("the name of {token:?} in {}, room {room}", shown(bytes));
        assert_eq!(named, expected, "{}", asked());
        assert!(buffer == expected_buffer, "bytes of the buffer: {}", asked());
        self.namings += 1;
        if let Reading::Refused(refused) = named.0 {
            *self.name_refusals.entry(refused.number).or_default() += 1;
        }
        self.second(bytes, &buffer[MARGIN..MARGIN + room], named.0);
    }

    /// Compares the call for a token of any kind, in its text and alone, with a buffer as long as the token and with one that may be too
    /// short; for one that has a name with buffers of every size that may matter, and as others that nobody gave.
    pub fn names(&mut self, bytes: &[u8], token: Words, chance: &mut Texts) {
        let [kind, offset, len] = token;
        let own = (offset as usize).checked_add(len as usize).and_then(|end| bytes.get(offset as usize..end));
        let whole = len.min(1000) as usize;
        let mut rooms = vec![whole, chance.below(whole + 1)];
        if let Ok((oracle, original)) = there(bytes, token)
            && let Some(sort) = Sort::of(&oracle, &original)
        {
            self.named[usize::from(u64::from(original.kind()) == c::KIND_ANNOTATION)][sort as usize] += 1;
            if len <= SHORT {
                rooms = (0..=whole + 1).collect();
            } else {
                let copied = match Value::name(&oracle, &original) {
                    Value::Copy(bytes) | Value::Fault(_, bytes) => bytes.len(),
                    _ => 0,
                };
                for size in [copied, len as usize] {
                    rooms.extend([size.saturating_sub(1), size, size + 1]);
                }
                rooms.push(0);
            }
            for token in forged(token, chance) {
                self.name(bytes, token, whole);
            }
        }
        for room in rooms {
            self.name(bytes, token, room);
            if let Some(own) = own {
                self.name(own, [kind, 0, len], room);
            }
        }
    }

    /// Compares the call, and the bindings' methods, for the token at the front of a text: alone, inside another text, and as one of
    /// another kind.
    fn name_text(&mut self, text: &str, chance: &mut Texts) {
        let Answer::Token(token) = Oracle::new(text, true).parse(0).0 else { return };
        self.name_texts += 1;
        let (kind, len) = (u64::from(token.kind()), u64::from(token.len()));
        let before = BEFORE[chance.below(BEFORE.len())];
        let longer = format!("{before}{text}{}", BEHIND[chance.below(BEHIND.len())]);
        for (text, offset) in [(text, 0), (&longer, before.len() as u64)] {
            self.names(text.as_bytes(), [kind, offset, len], chance);
            for kind in c::KIND_LINE_COMMENT..=c::KIND_NORMAL {
                self.items += bindings::names(text, [kind, offset, len]);
            }
        }
    }

    /// Compares the names of one share, all of those of the grammar of up to `most` parts, and so many random ones.
    pub fn name_texts(&mut self, (which, shares): (u64, u64), most: usize, random: u64, seed: u64) {
        // other random numbers than those of the share's texts, literals, nests and strings
        let mut chance = Texts::new(seed.wrapping_mul(shares).wrapping_add(which).rotate_left(16));
        let mut turn = 0;
        names::grammar(most, &mut |text| {
            if turn % shares == which {
                self.name_text(text, &mut chance);
            }
            turn += 1;
        });
        for _ in (which..random).step_by(shares as usize) {
            let text = names::random(&mut chance);
            self.name_text(&text, &mut chance);
        }
    }
}

/// A text, a token's words, the buffer's length, and the number by which the call refuses it, where a later one would hold too.
const ORDER: [(&[u8], Words, usize, u64); 15] = [
    (b"$\xff", [c::KIND_ID, 9, 1], 0, c::NOT_UTF8),
    (b"\xc3\xa9$\xff", [c::KIND_ID, 1, 1], 0, c::NOT_UTF8),
    (b"$", [c::KIND_ID, 2, 1], 0, c::PAST_END),
    (b"\xc3\xa9$", [c::KIND_ID, 1, 1], 0, c::INSIDE_CHARACTER),
    (b"a", [c::KIND_STRING, 0, 1], 0, c::NOT_THAT_TOKEN),
    (b"$", [c::KIND_ID, 0, 0], 0, c::NOT_THAT_TOKEN),
    // each of the two, taken for the other
    (b"@", [c::KIND_ID, 0, 1], 0, c::NOT_THAT_TOKEN),
    (b"$", [c::KIND_ANNOTATION, 0, 1], 0, c::NOT_THAT_TOKEN),
    (b"\"\\ff\"", [c::KIND_STRING, 0, 5], 0, c::NOT_THAT_KIND),
    (b"$\"\\ff\"", [c::KIND_ID, 0, 6], 0, c::BUFFER_TOO_SHORT),
    (b"$\"\\ff\"", [c::KIND_ID, 0, 6], 1, c::INVALID_UTF8_ID),
    (b"@\"a\\ff\"", [c::KIND_ANNOTATION, 0, 7], 1, c::BUFFER_TOO_SHORT),
    (b"@\"a\\ff\"", [c::KIND_ANNOTATION, 0, 7], 2, c::INVALID_UTF8_ID),
    (b"$\"\"", [c::KIND_ID, 0, 3], 0, c::EMPTY_ID),
    (b"@\"\"", [c::KIND_ANNOTATION, 0, 3], 0, c::EMPTY_ANNOTATION),
];

/// The order of the refusals; 1, which takes a text of its own; and the longest names. None of these is counted: the other texts have to
/// show each refusal by themselves.
pub fn limits() {
    let mut counts = Counts::default();
    for (text, token, room, number) in ORDER {
        let refused = match ours::name(text, token, &mut vec![0; room]) {
            (Reading::Refused(refused), 0) => refused.number,
            other => panic!("{token:?} in {} is refused, not {other:?}", shown(text)),
        };
        assert_eq!(refused, number, "the refusal of the name of {token:?} in {}", shown(text));
        counts.name(text, token, room);
    }
    let most = c::MAX_TEXT as usize;
    let mut text = vec![b'a'; most + 1];
    text[0] = b'$';
    for (last, offset, len) in [(b'a', 3, 1), (b'a', u64::MAX, 1), (0xff, 0, u64::MAX)] {
        *text.last_mut().expect("a long text") = last;
        let long = Reading::Refused(Refused { number: c::TOO_LONG, values: [0, 0], place: offset });
        assert_eq!(ours::name(&text, [c::KIND_ID, offset, len], &mut []), (long, 0));
    }
    for (sigil, kind) in [("$", c::KIND_ID), ("@", c::KIND_ANNOTATION)] {
        let token = [kind, 0, c::MAX_TEXT];
        let word = format!("{sigil}{}", "a".repeat(most - 1));
        let whole = Reading::Text { start: 1, len: c::MAX_TEXT - 1 };
        assert_eq!(ours::name(word.as_bytes(), token, &mut []), (whole, kind));
        // a copy as long as can be: one escape, and a buffer that is a byte too short, just holds it, or has a byte more
        let text = format!("{sigil}\"\\61{}\"", "a".repeat(most - 6));
        let copied = most - 5;
        for room in copied - 1..=copied + 1 {
            let mut buffer = vec![CANARY; room];
            let named = ours::name(text.as_bytes(), token, &mut buffer);
            if room < copied {
                let short = Reading::Refused(Refused { number: c::BUFFER_TOO_SHORT, values: [0, 0], place: 0 });
                assert_eq!(named, (short, 0));
                assert!(buffer.iter().all(|&byte| byte == CANARY), "a refusal leaves the buffer");
            } else {
                assert_eq!(named, (Reading::Buffer { start: 0, len: copied as u64 }, kind));
                assert!(buffer[..copied].iter().all(|&byte| byte == b'a'), "a long name");
                assert!(buffer[copied..].iter().all(|&byte| byte == CANARY), "a byte past a long name");
            }
        }
        bindings::names(&text, token);
    }
}
