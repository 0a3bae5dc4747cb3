//! Moves of the place counter, asked of the library, of the Rust bindings and of two models, one of which goes byte by byte and the other
//! line by line: over every string of a few bytes that are CR, LF or another, from places at the limits, in one move and in two; and over
//! random bytes in pieces. `reading.rs` asks for those over every token.

use crate::bindings;
use crate::compare::{Counts, shown};
use crate::ours::{self, Counter};
use oracle::places::{self, Place};
use oracle::texts::{Texts, every};

/// The strings have so many more bytes than the texts of `main.rs` have symbols, since there are fewer.
const MORE: usize = 3;

/// What the rule tells apart.
const BYTES: [&[u8]; 3] = [b"\r", b"\n", b"a"];

/// Lines and columns: the first, and those at the limit.
const EDGES: [u32; 3] = [1, u32::MAX - 1, u32::MAX];

/// Third words: 0, and those that count as 1.
const THIRD: [u32; 8] = [0, 1, 2, 7, 0x100, 0x1_0000, 1 << 31, u32::MAX];

/// Every place at these edges, with a third word of each sort.
fn edges() -> impl Iterator<Item = Counter> {
    let columns = |line| EDGES.into_iter().flat_map(move |column| [0, 1, 7].map(|third| [line, column, third]));
    EDGES.into_iter().flat_map(columns)
}

/// A place near the limits.
pub fn near(chance: &mut Texts) -> Counter {
    let (line, column) = (chance.below(4), chance.below(12 * THIRD.len()));
    [u32::MAX - line as u32, u32::MAX - column as u32 % 12, THIRD[column / 12]]
}

/// The counter moved byte by byte.
fn walked([line, column, third]: Counter, bytes: &[u8]) -> Option<Counter> {
    bytes.iter().try_fold([line, column, u32::from(third != 0)], |[line, column, after_cr], byte| {
        match (byte, after_cr) {
            (b'\n', 1) => Some([line, 1, 0]),
            (b'\n', _) => Some([line.checked_add(1)?, 1, 0]),
            (b'\r', _) => Some([line.checked_add(1)?, 1, 1]),
            _ => Some([line, column.checked_add(1)?, 0]),
        }
    })
}

/// The counter moved, as both models have it; nothing for 35.
pub fn expected(place: Counter, bytes: &[u8]) -> Option<Counter> {
    let walked = walked(place, bytes);
    let [line, column, third] = place;
    let counted = places::moved(Place { line, column, after_cr: third != 0 }, bytes);
    let counted = counted.map(|Place { line, column, after_cr }| [line, column, after_cr.into()]);
    assert_eq!(walked, counted, "the models, {place:?} over {}", shown(bytes));
    walked
}

impl Counts {
    /// Compares a move.
    pub fn moved(&mut self, place: Counter, bytes: &[u8]) -> Option<Counter> {
        let moved = ours::move_over(place, bytes);
        assert_eq!(moved, expected(place, bytes), "{place:?} over {}", shown(bytes));
        self.moves += 1;
        self.full += u64::from(moved.is_none());
        moved
    }

    /// Compares the moves over some pieces, one after the other, from each of the places, and that they lead where one move over all
    /// leads; and those of the bindings.
    fn pieces(&mut self, places: impl IntoIterator<Item = Counter>, pieces: &[&[u8]]) {
        let bytes = pieces.concat();
        for place in places {
            let last = pieces.iter().try_fold(place, |place, piece| self.moved(place, piece));
            assert_eq!(last, self.moved(place, &bytes), "{place:?} over {}, in pieces and at once", shown(&bytes));
        }
        self.items += bindings::moves(pieces);
    }

    /// Compares the moves of one share, over all strings of up to `most` bytes and some more, and over random ones.
    pub fn line_ends(&mut self, (which, shares): (u64, u64), most: usize, random: u64, seed: u64) {
        let mut turn = 0;
        every(&BYTES, most + MORE, &mut Vec::new(), &mut |bytes| {
            if turn % shares == which {
                self.strings += 1;
                for cut in 0..=bytes.len() {
                    self.pieces(edges(), &[&bytes[..cut], &bytes[cut..]]);
                }
            }
            turn += 1;
        });
        // other random numbers than those of the share's texts, literals and nests
        let mut chance = Texts::new(!seed.wrapping_mul(shares).wrapping_add(which).rotate_left(32));
        for _ in (which..random).step_by(shares as usize) {
            self.strings += 1;
            let limit = [4, 12, 60][chance.below(3)];
            let bytes = chance.line_ends(limit);
            let to = chance.below(bytes.len() + 1);
            let from = chance.below(to + 1);
            let any = [chance.any_number(), chance.any_number(), chance.any_number()];
            self.pieces([[1, 1, 0], near(&mut chance), any], &[&bytes[..from], &bytes[from..to], &bytes[to..]]);
        }
    }
}
