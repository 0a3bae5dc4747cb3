//! Escapes `\u{..}`, asked of the library, of the Rust bindings and of the oracle with all settings: every sequence of digits,
//! underscores and what ends them, also behind digits with which the number is about to pass 32 bits; in a string, a name, an
//! annotation, another run and a form.

use crate::bindings;
use crate::compare::{Counts, ignored};
use crate::ours;
use oracle::Settings;
use oracle::listing::RECORD;
use oracle::texts::every;

/// What stands before an escape's number: it begins at one of the first positions.
const BEFORE: [&str; 6] = ["\"\\u{", "$\"\\u{", "@\"\\u{", "a\"b\"\"\\u{", "(@\"\\u{", "(a \"\\\\\\u{"];
const FIRST: usize = 3;

/// What the number begins with: nothing, or seven or eight digits, with which an eighth or ninth is the last, or one too many.
const DIGITS: [&str; 5] = ["", "fffffff", "ffffffff", "ffff_ffff", "0_0000_000d_7"];

/// What a number is made of, and what ends it.
const PARTS: [&str; 7] = ["_", "1", "f", "d800", "}", "\"", "g"];

/// In a string alone the numbers have up to so many more parts than the texts of `main.rs` have symbols. The bindings are asked for those
/// of at most so many bytes.
const MORE: usize = 1;
const MOST_OF_BINDINGS: usize = 3;

impl Counts {
    /// Compares one token, annotation, listing and the form's end at the first positions of a text.
    fn escape(&mut self, text: &[u8]) {
        self.escapes += 1;
        let ignored = ignored(self.escapes);
        for settings in Settings::ALL {
            for position in 0..FIRST {
                self.token(text, settings, ignored, position);
                self.fold(text, settings, ignored, position);
            }
            self.listing(text, settings, ignored, 0, usize::MAX, RECORD * text.len());
        }
    }

    /// Compares the escapes of one share, all of those of up to `most` parts and some more.
    pub fn escapes(&mut self, (which, shares): (u64, u64), most: usize) {
        let parts = PARTS.map(str::as_bytes);
        let mut turn = 0;
        for before in BEFORE {
            for digits in DIGITS {
                let mut front = [before, digits].concat().into_bytes();
                let bound = front.len() + MOST_OF_BINDINGS;
                let most = if before == BEFORE[0] { most + MORE } else { most };
                every(&parts, most, &mut front, &mut |text| {
                    if turn % shares == which {
                        self.escape(text);
                        if text.len() <= bound {
                            let text = std::str::from_utf8(text).expect("parts are UTF-8");
                            self.items += bindings::text(text, turn, &mut self.item_refusals);
                        }
                    }
                    turn += 1;
                });
            }
        }
    }
}

/// Texts with strict digits that are as long as can be: a pair at the very end, after as many single underscores as there is room for, and
/// none.
pub fn limits() {
    let most = ours::c::MAX_TEXT as usize;
    for (digits, end) in [("0_", "_1}\""), ("0_", "1}\" "), ("", "0__1}\"")] {
        let front = "\"\\u{0_0";
        let room = most - front.len() - end.len();
        let filled = if digits.is_empty() { "0".repeat(room) } else { digits.repeat(room / 2) };
        let text = format!("{front}{}{filled}{end}", "0".repeat(room - filled.len()));
        let place = text.find("__").map(|pair| pair as u64 + 1);
        let (found, after) = ours::parse(text.as_bytes(), ours::STRICT_DIGITS, 0);
        let refused = found.refused().map(|refused| (refused.number, refused.place));
        assert_eq!(refused, place.map(|place| (ours::c::DOUBLE_UNDERSCORE, place)), "{front}{digits}..{end}");
        assert_eq!(after, place.map_or(text.trim_end().len() as u64, |place| place + 1), "{front}{digits}..{end}");
    }
}
