//! Thallusweb's calls as C sees them (include/thallusweb.h), with their answers as values.

/// The header's constants, without THALLUSWEB_, and its calls, as build.rs reads them. One that the comparison does not use is an error.
#[deny(dead_code)]
pub mod c {
    include!(concat!(env!("OUT_DIR"), "/header.rs"));
}

pub fn version() -> u32 {
    unsafe { c::thallusweb_version() }
}

/// The bits of a settings word: confusing characters are allowed, and digits are strict.
pub const ALLOW_CONFUSING: u32 = c::ALLOW_CONFUSING as u32;
pub const STRICT_DIGITS: u32 = c::STRICT_DIGITS as u32;

/// The bits of a settings word that are ignored: all others.
pub const IGNORED: u32 = !(ALLOW_CONFUSING | STRICT_DIGITS);

/// A token as a call takes it: its kind, offset and length.
pub type Words = [u64; c::TOKEN_WORDS as usize];

/// What a reader's first call answers.
#[derive(Clone, Copy, Debug, PartialEq, Eq)]
pub enum Reading {
    Absent,
    Text { start: u64, len: u64 },
    Buffer { start: u64, len: u64 },
    Refused(Refused),
}

/// A refusal: its number, its values (0 where it has none) and its place.
#[derive(Clone, Copy, Debug, PartialEq, Eq)]
pub struct Refused {
    pub number: u64,
    pub values: [u64; 2],
    pub place: u64,
}

/// What a call for one token answers.
#[derive(Clone, Copy, Debug, PartialEq, Eq)]
pub enum Found {
    Nothing,
    Token { kind: u64, offset: u64, len: u64 },
    Refused(Refused),
}

impl Found {
    pub fn refused(self) -> Option<Refused> {
        if let Found::Refused(refused) = self { Some(refused) } else { None }
    }
}

/// Why a listing stops.
#[derive(Clone, Copy, Debug, PartialEq, Eq)]
pub enum Stop {
    End,
    Budget,
    Refused(Refused),
    Full,
}

#[derive(Clone, Copy, Debug, PartialEq, Eq)]
pub struct Listed {
    pub stop: Stop,
    pub count: u64,
    pub position: u64,
}

/// What no call writes: a word that it leaves is seen.
const UNTOUCHED: u64 = 0xdead_beef_dead_beef;

/// The answer of `call`, which writes `N` words and no more.
fn words<const N: usize>(call: impl FnOnce(*mut [u64; N])) -> [u64; N] {
    let mut all = [UNTOUCHED; 16];
    call(all[4..].as_mut_ptr().cast());
    let written = std::array::from_fn(|i| all[4 + i]);
    assert!(
        all[..4].iter().chain(&all[4 + N..]).all(|&word| word == UNTOUCHED),
        "a word beside the answer was written"
    );
    written
}

fn found([what, number, place, first, second]: [u64; 5]) -> Found {
    match (what, second) {
        (c::NOTHING, 0) => Found::Nothing,
        (c::TOKEN, 0) => Found::Token { kind: number, offset: place, len: first },
        (c::REFUSED, _) => Found::Refused(Refused { number, values: [first, second], place }),
        _ => panic!("no answer has the words {what} {number} {place} {first} {second}"),
    }
}

/// Well formed, or the two numbers of a refusal by 2.
pub fn utf8_check(text: &[u8]) -> Result<(), [u64; 2]> {
    let call = |out| unsafe { c::thallusweb_utf8_check(text.as_ptr(), text.len(), out) };
    match words::<{ c::UTF8_WORDS as usize }>(call) {
        [0, 0, 0] => Ok(()),
        [c::REFUSED, valid, error] => Err([valid, error]),
        other => panic!("no answer has the words {other:?}"),
    }
}

/// One token at a position, and the position afterwards.
pub fn parse(text: &[u8], settings: u32, position: usize) -> (Found, u64) {
    let call = |out| unsafe { c::thallusweb_parse(text.as_ptr(), text.len(), settings, position, out) };
    let [what, number, place, first, second, after] = words::<{ c::PARSE_WORDS as usize }>(call);
    (found([what, number, place, first, second]), after)
}

pub fn annotation(text: &[u8], settings: u32, position: usize) -> Found {
    let call = |out| unsafe { c::thallusweb_annotation(text.as_ptr(), text.len(), settings, position, out) };
    found(words::<{ c::ANNOTATION_WORDS as usize }>(call))
}

pub fn list(text: &[u8], settings: u32, start: usize, budget: usize, list: &mut [u8]) -> Listed {
    let call = |out| unsafe {
        let (list, room) = (list.as_mut_ptr(), list.len());
        c::thallusweb_list(text.as_ptr(), text.len(), settings, start, budget, list, room, out)
    };
    let [why, number, place, first, second, count, position] = words::<{ c::LIST_WORDS as usize }>(call);
    let stop = match (why, number) {
        (c::END, 0) => Stop::End,
        (c::BUDGET, 0) => Stop::Budget,
        (c::REFUSED, _) => Stop::Refused(Refused { number, values: [first, second], place }),
        (c::FULL, c::LIST_FULL) => Stop::Full,
        _ => panic!("no listing stops by {why}, {number}"),
    };
    Listed { stop, count, position }
}

/// The position past the form at a position.
pub fn fold(text: &[u8], settings: u32, position: usize) -> Result<u64, Refused> {
    let call = |out| unsafe { c::thallusweb_fold(text.as_ptr(), text.len(), settings, position, out) };
    match words::<{ c::FOLD_WORDS as usize }>(call) {
        [c::TOLD, end, 0, 0, 0] => Ok(end),
        [c::REFUSED, number, place, first, second] => Err(Refused { number, values: [first, second], place }),
        other => panic!("no form's end has the words {other:?}"),
    }
}

pub fn read(text: &[u8], reader: u64, token: Words, buffer: &mut [u8]) -> Reading {
    let call = |out| unsafe {
        let (buffer, room) = (buffer.as_mut_ptr(), buffer.len());
        c::thallusweb_read(text.as_ptr(), text.len(), reader, &token, buffer, room, out)
    };
    match words::<{ c::READ_WORDS as usize }>(call) {
        [c::ABSENT, 0, 0, 0, 0] => Reading::Absent,
        [c::IN_TEXT, start, len, 0, 0] => Reading::Text { start, len },
        [c::REFUSED, number, place, first, second] => {
            Reading::Refused(Refused { number, values: [first, second], place })
        }
        [c::IN_BUFFER, start, len, 0, 0] => Reading::Buffer { start, len },
        other => panic!("no reader answers {other:?}"),
    }
}

/// What the call for names answers, and its last word: the number of the kind that the name is of, 0 where there is none.
pub fn name(text: &[u8], token: Words, buffer: &mut [u8]) -> (Reading, u64) {
    let call = |out| unsafe {
        let (buffer, room) = (buffer.as_mut_ptr(), buffer.len());
        c::thallusweb_name(text.as_ptr(), text.len(), &token, buffer, room, out)
    };
    match words::<{ c::NAME_WORDS as usize }>(call) {
        [c::IN_TEXT, start, len, 0, 0, kind] => (Reading::Text { start, len }, kind),
        [c::REFUSED, number, place, first, second, kind] => {
            (Reading::Refused(Refused { number, values: [first, second], place }), kind)
        }
        [c::IN_BUFFER, start, len, 0, 0, kind] => (Reading::Buffer { start, len }, kind),
        other => panic!("no name has the words {other:?}"),
    }
}

/// The second call, for any words as the first call's answer.
pub fn part(text: &[u8], buffer: &[u8], answer: [u64; 5]) -> [u64; 3] {
    let (room, len) = (buffer.len(), text.len());
    let call = |out| unsafe { c::thallusweb_part(text.as_ptr(), len, buffer.as_ptr(), room, &answer, out) };
    words::<{ c::PART_WORDS as usize }>(call)
}

fn sign(answer: [u64; c::SIGN_WORDS as usize]) -> Result<Option<u64>, Refused> {
    match answer {
        [c::ABSENT, 0, 0, 0, 0] => Ok(None),
        [c::TOLD, sign, 0, 0, 0] => Ok(Some(sign)),
        [c::REFUSED, number, place, first, second] => Err(Refused { number, values: [first, second], place }),
        other => panic!("no sign has the words {other:?}"),
    }
}

/// `SIGN_NONE`, `SIGN_PLUS` or `SIGN_MINUS`.
pub fn integer_sign(text: &[u8], token: Words) -> Result<Option<u64>, Refused> {
    sign(words(|out| unsafe { c::thallusweb_integer_sign(text.as_ptr(), text.len(), &token, out) }))
}

/// 1 for a negative float, 0 for another; nothing for a float whose sign is in its integral part.
pub fn float_sign(text: &[u8], token: Words) -> Result<Option<u64>, Refused> {
    sign(words(|out| unsafe { c::thallusweb_float_sign(text.as_ptr(), text.len(), &token, out) }))
}

/// A word of 32 or 64 bits.
fn value(answer: [u64; c::INTEGER_WORDS as usize]) -> Result<u64, Refused> {
    match answer {
        [c::TOLD, word, 0, 0, 0] => Ok(word),
        [c::REFUSED, number, place, first, second] => Err(Refused { number, values: [first, second], place }),
        other => panic!("no value has the words {other:?}"),
    }
}

pub fn integer_32(text: &[u8], token: Words) -> Result<u64, Refused> {
    value(words(|out| unsafe { c::thallusweb_integer_32(text.as_ptr(), text.len(), &token, out) }))
}

pub fn integer_64(text: &[u8], token: Words) -> Result<u64, Refused> {
    value(words(|out| unsafe { c::thallusweb_integer_64(text.as_ptr(), text.len(), &token, out) }))
}

/// The length of the message, or the number of a refusal.
pub fn message(number: u64, values: [u64; 2], buffer: &mut [u8]) -> Result<u64, u64> {
    let call =
        |out| unsafe { c::thallusweb_message(number, values[0], values[1], buffer.as_mut_ptr(), buffer.len(), out) };
    match words::<{ c::MESSAGE_WORDS as usize }>(call) {
        [c::TOLD, len, 0, 0, 0] => Ok(len),
        [c::REFUSED, number, 0, 0, 0] => Err(number),
        other => panic!("no message has the words {other:?}"),
    }
}

/// The place counter's words: line, column, and whether the last byte passed is a CR.
pub type Counter = [u32; 3];

/// The counter afterwards, or nothing where the move is refused by 35 and left its words as they were.
pub fn move_over(place: Counter, bytes: &[u8]) -> Option<Counter> {
    const BESIDE: u32 = UNTOUCHED as u32;
    let mut words = [[BESIDE; 3], place, [BESIDE; 3]];
    let moved = unsafe { c::thallusweb_move(&mut words[1], bytes.as_ptr(), bytes.len()) };
    let [before, after, behind] = words;
    assert_eq!((before, behind), ([BESIDE; 3], [BESIDE; 3]), "a word beside the counter was written");
    assert!(moved || after == place, "a refused move left {after:?} for {place:?}, over {}", bytes.escape_ascii());
    moved.then_some(after)
}
