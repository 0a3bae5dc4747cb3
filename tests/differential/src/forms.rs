//! The ends of forms, asked of the library, of the Rust bindings and of the oracle's model: `compare.rs` asks at every position of its
//! texts, and here are all texts of a small grammar of parentheses and what hides them, alone and below almost as many levels as there
//! may be, and random nests.

use crate::bindings;
use crate::compare::{Counts, asked, ignored, passed_on, refused, shown, turned, words};
use crate::ours::{self, Refused, c};
use crate::reading::nowhere;
use oracle::forms::{LEVELS, Unfolded};
use oracle::nests;
use oracle::texts::Texts;
use oracle::{Oracle, Settings};

/// The grammar has texts of so many more symbols than that of `main.rs`, since it has fewer.
const MORE: usize = 2;

/// One in so many random texts is a nest, and one in so many nests is damaged as well.
const NESTS: u64 = 5;
const DAMAGED: usize = 4;

/// Positions at which a nest is asked: at its front, where the deepest forms begin, and anywhere.
const FRONT: usize = 4;
const ANYWHERE: usize = 6;

/// All refusals but 1, which takes a text of its own.
pub const REFUSALS: [u64; 18] = [2, 3, 4, 10, 11, 12, 13, 14, 16, 17, 18, 19, 20, 21, 25, 31, 41, 42];

/// The position past the form, by the model: 1 to 4, then what the model says.
pub fn expected(bytes: &[u8], settings: Settings, position: usize) -> Result<u64, Refused> {
    let folded = Oracle::with_settings(turned(bytes, position)?, settings).fold(position);
    folded.map(|end| end as u64).map_err(|unfolded| match unfolded {
        Unfolded::NoForm => nowhere(31),
        Unfolded::Fault(fault) => passed_on(fault),
        Unfolded::TooDeep { place } => refused(41, [0, 0], place),
        Unfolded::Unclosed { place } => refused(42, [0, 0], place),
    })
}

impl Counts {
    /// Compares the call at a position, asked with both words of the settings.
    pub fn fold(&mut self, bytes: &[u8], settings: Settings, ignored: u32, position: usize) {
        let expected = expected(bytes, settings, position);
        for settings in words(settings, ignored) {
            let folded = ours::fold(bytes, settings, position);
            assert_eq!(folded, expected, "the form's end of {} at {position}, settings {settings:#x}", shown(bytes));
        }
        self.folds += 1;
        if let Err(refused) = expected {
            *self.fold_refusals.entry(refused.number).or_default() += 1;
        }
    }

    /// Compares the call at some positions of a text, and the bindings' where it is one.
    fn nest(&mut self, bytes: &[u8], positions: impl Iterator<Item = usize> + Clone) {
        self.nests += 1;
        let ignored = ignored(self.nests);
        for &settings in asked(bytes, self.nests) {
            for position in positions.clone() {
                self.fold(bytes, settings, ignored, position);
            }
            if let Ok(text) = std::str::from_utf8(bytes) {
                self.items += bindings::folds(text, settings, positions.clone(), &mut self.item_refusals);
            }
        }
    }

    /// Compares the nests of one share, all of those of the grammar of `most` symbols and some more, and random ones.
    pub fn nests(&mut self, (which, shares): (u64, u64), most: usize, random: u64, seed: u64) {
        let mut turn = 0;
        let mut each = |text: &str, positions: usize| {
            if turn % shares == which {
                self.nest(text.as_bytes(), 0..positions);
            }
            turn += 1;
        };
        // what stands behind a position of one is itself one
        nests::grammar("", most + MORE, "", &mut |text| each(text, 2));
        let (front, end) = ("(".repeat(LEVELS - 1), ")".repeat(LEVELS + 1));
        nests::grammar(&front, most, "", &mut |text| each(text, FRONT));
        nests::grammar(&front, most, &end, &mut |text| each(text, FRONT));
        // other random numbers than those of the share's texts and literals
        let mut chance = Texts::new(seed.wrapping_mul(shares).wrapping_add(which).rotate_left(32));
        for _ in (which..random / NESTS).step_by(shares as usize) {
            let text = nests::random(&mut chance).into_bytes();
            let mut anywhere = [0; ANYWHERE];
            anywhere.fill_with(|| chance.below(text.len() + 3));
            self.nest(&text, (0..FRONT).chain(anywhere));
            if chance.below(DAMAGED) == 0 {
                self.nest(&damaged(text, &mut chance), (0..FRONT).chain(anywhere));
            }
        }
    }
}

/// The bytes, some of them others, dropped, or more than before: mostly no UTF-8 where a character has several.
fn damaged(mut bytes: Vec<u8>, chance: &mut Texts) -> Vec<u8> {
    let at = chance.below(bytes.len() + 1);
    match chance.below(4) {
        0 => bytes.truncate(at),
        1 => _ = bytes.drain(..at),
        2 if at < bytes.len() => bytes[at] = b"();\"\\\n\xff\xe2"[chance.below(8)],
        _ => bytes.insert(at, b"();\"\\\n\xc3\x80"[chance.below(8)]),
    }
    bytes
}

/// A text, a position, and the number by which the call refuses it, where a later one would hold too.
const ORDER: [(&[u8], usize, u64); 9] = [
    (b"(\xff", 9, c::NOT_UTF8),
    (b"(\xc3\xa9)\xff", 2, c::NOT_UTF8),
    (b"(a)(;\"\xff", 0, c::NOT_UTF8),
    (b"(", 2, c::PAST_END),
    (b"(\xc3\xa9(", 2, c::INSIDE_CHARACTER),
    (b"\"\\q\"", 0, c::NOT_THAT_KIND),
    (b"(;", 0, c::NOT_THAT_KIND),
    (b"(\"\\q\"(;", 0, c::INVALID_STRING_ESCAPE),
    (b"((;\"\\q\"", 0, c::DANGLING_BLOCK_COMMENT),
];

/// A form of so many bytes, or what is begun and not ended: a front, as many pieces as there is room for, and an end.
fn long(size: usize, front: &str, piece: &str, end: &str) -> String {
    let room = size - front.len() - end.len();
    format!("{front}{}{}{end}", piece.repeat(room / piece.len()), " ".repeat(room % piece.len()))
}

/// So many nests are asked at every position, and so many of these at least are too deep somewhere.
const WHOLE: usize = 400;
const DEEP: usize = 50;

/// The order of the refusals; 1, which takes a text of its own; every position of some nests; and long forms, the longest that can be and shorter ones, some with many
/// forms in them that are as deep as can be, which would take for ever if a level were read twice. None of these is counted: the other
/// texts have to show each refusal by themselves.
pub fn limits() {
    let mut counts = Counts::default();
    for (text, position, number) in ORDER {
        let refused = ours::fold(text, 0, position).map_err(|refused| refused.number);
        assert_eq!(refused, Err(number), "the refusal of {} at {position}", shown(text));
        counts.fold(text, Settings::default(), ours::IGNORED, position);
    }
    let mut chance = Texts::new(LEVELS as u64);
    let mut deep = 0;
    for _ in 0..WHOLE {
        let before = counts.fold_refusals.get(&c::TOO_DEEP).copied();
        let text = nests::random(&mut chance);
        counts.nest(text.as_bytes(), 0..text.len() + 3);
        deep += usize::from(counts.fold_refusals.get(&c::TOO_DEEP).copied() != before);
    }
    assert!(deep >= DEEP, "of {WHOLE} nests only {deep} are too deep somewhere");
    let most = c::MAX_TEXT as usize;
    let mut text = vec![b'('; most + 1];
    for (last, position) in [(b'(', 3), (b')', usize::MAX), (0xff, 0)] {
        *text.last_mut().expect("a long text") = last;
        assert_eq!(ours::fold(&text, 0, position), Err(refused(c::TOO_LONG, [0, 0], position)));
    }
    let openings = "(".repeat(LEVELS - 1);
    let deepest = format!("{openings}{} \"(\" ;;)\n", ")".repeat(LEVELS - 1));
    // at each level a form beside the next
    let stairs = format!("{}{} ", "(a)(b".repeat(LEVELS - 1), ")".repeat(LEVELS - 1));
    for piece in ["a", "(;é);)", "\"(\"", &deepest, &stairs] {
        let text = long(most, "(", piece, ")");
        assert_eq!(ours::fold(text.as_bytes(), 0, 0), Ok(c::MAX_TEXT), "a form of many {piece:?}");
        assert_eq!(thallusweb::lexer::Lexer::new(&text).fold(0), Ok(most), "bindings, a form of many {piece:?}");
        for end in [")", "", "(()", "\"", &openings, &format!("{openings}(")] {
            counts.nest(long(most >> 6, "(", piece, end).as_bytes(), [0, 1].into_iter());
        }
    }
}
