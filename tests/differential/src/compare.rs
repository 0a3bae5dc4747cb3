//! One text, asked of both sides in every way: at every position, with the settings, each alone in the settings word and beside
//! ignored bits, listed with small and large budgets and lists; `reading.rs`, `names.rs`, `places.rs` and `forms.rs` ask the rest. What
//! docs/RULES.md adds to the Rust, the refusals 1 to 4 and 25, is expected by its rule.

use crate::bindings;
use crate::ours::{self, Found, Listed, Refused, Stop};
use oracle::listing::{self, RECORD};
use oracle::names::Sort;
use oracle::texts::Texts;
use oracle::{Answer, Fault, Oracle, Settings};
use std::collections::BTreeMap;

/// How often each refusal was the answer, by its number.
pub type Refusals = BTreeMap<u64, u64>;

/// How many calls were compared, by what was asked.
#[derive(Default)]
pub struct Counts {
    pub texts: u64,
    pub tokens: u64,
    pub annotations: u64,
    pub listings: u64,
    pub readings: u64,
    pub parts: u64,
    pub signs: u64,
    pub messages: u64,
    /// moves of the place counter
    pub moves: u64,
    /// those that 35 refuses
    pub full: u64,
    /// byte strings that were asked for their moves alone
    pub strings: u64,
    /// answers of the Rust bindings
    pub items: u64,
    /// tokens that strict lexing gave, and readers took
    pub strictly: u64,
    /// texts of an escape that were asked for their own sake
    pub escapes: u64,
    /// refusals of one token or of a reader
    pub refusals: Refusals,
    pub annotation_refusals: Refusals,
    pub list_refusals: Refusals,
    /// refusals of the bindings, by the call
    pub item_refusals: [Refusals; bindings::CALLS.len()],
    /// answers of the call for names
    pub namings: u64,
    pub name_refusals: Refusals,
    /// the tokens among these that have a name: of ids and of annotations, by the sort of the name
    pub named: [[u64; Sort::ALL.len()]; 2],
    /// texts that were asked for the names in front of them
    pub name_texts: u64,
    /// literals of integers that were asked for their own sake
    pub literals: u64,
    /// values of integers
    pub values: u64,
    pub value_refusals: Refusals,
    /// texts that were asked for the ends of their forms alone
    pub nests: u64,
    /// positions that were asked for the end of a form
    pub folds: u64,
    pub fold_refusals: Refusals,
}

/// The bytes around a lent list, and what it holds before.
pub const MARGIN: usize = 16;
pub const CANARY: u8 = 0xa5;

/// Some of the ignored bits, at least one, by the text's number: the texts do not depend on them.
pub fn ignored(number: u64) -> u32 {
    let shift = ours::IGNORED.trailing_zeros();
    (1 + Texts::new(number).below((ours::IGNORED >> shift) as usize) as u32) << shift
}

/// The settings words that say settings: their bits alone, and beside ignored ones.
pub fn words(settings: Settings, ignored: u32) -> [u32; 2] {
    let confusing = if settings.allow_confusing { ours::ALLOW_CONFUSING } else { 0 };
    let strict = if settings.strict_digits { ours::STRICT_DIGITS } else { 0 };
    [confusing | strict, confusing | strict | ignored]
}

/// One in so many texts without an underscore is asked with strict digits too, which say nothing of it.
const STRICT_ONES: u64 = 16;

/// The settings with which a text is asked, by its number: all of them where it has an underscore.
pub fn asked(bytes: &[u8], number: u64) -> &'static [Settings] {
    let all = bytes.contains(&b'_') || number.is_multiple_of(STRICT_ONES);
    &Settings::ALL[..if all { 4 } else { 2 }]
}

pub fn refused(number: u64, values: [u64; 2], place: usize) -> Refused {
    Refused { number, values, place: place as u64 }
}

pub fn passed_on(fault: Fault) -> Refused {
    refused(fault.number.into(), fault.data.map(u64::from), fault.place)
}

/// 1 is left out: it takes a text of 16 MiB, and has a test of its own.
pub fn turned(bytes: &[u8], position: usize) -> Result<&str, Refused> {
    let text = oracle::utf8(bytes).map_err(|numbers| refused(2, numbers.map(u64::from), numbers[0] as usize))?;
    if position > text.len() {
        return Err(refused(3, [0, 0], position));
    }
    if !text.is_char_boundary(position) {
        return Err(refused(4, [0, 0], position));
    }
    Ok(text)
}

fn handed_out(token: oracle::readers::Token) -> Found {
    Found::Token { kind: token.kind().into(), offset: token.offset() as u64, len: token.len().into() }
}

pub fn expected_token(bytes: &[u8], settings: Settings, position: usize) -> (Found, u64) {
    let (found, after) = match turned(bytes, position) {
        Err(refused) => (Found::Refused(refused), position),
        Ok(text) => match Oracle::with_settings(text, settings).parse(position) {
            (Answer::End, after) => (Found::Nothing, after),
            (Answer::Token(token), after) => (handed_out(token), after),
            (Answer::Fault(fault), after) => (Found::Refused(passed_on(fault)), after),
        },
    };
    (found, after as u64)
}

pub fn expected_annotation(bytes: &[u8], settings: Settings, position: usize) -> Found {
    let text = match turned(bytes, 0) {
        Err(refused) => return Found::Refused(refused),
        Ok(text) => text,
    };
    match Oracle::with_settings(text, settings).annotation(position) {
        Ok(None) => Found::Nothing,
        Ok(Some(token)) => handed_out(token),
        Err(fault) => Found::Refused(passed_on(fault)),
    }
}

pub fn expected_listing(bytes: &[u8], settings: Settings, start: usize, budget: usize, list: &mut [u8]) -> Listed {
    let text = match turned(bytes, start) {
        Err(refused) => return Listed { stop: Stop::Refused(refused), count: 0, position: start as u64 },
        Ok(text) => text,
    };
    let listing = Oracle::with_settings(text, settings).list(start, budget, list);
    let stop = match listing.stop {
        listing::Stop::End => Stop::End,
        listing::Stop::Budget => Stop::Budget,
        listing::Stop::Fault(fault) => Stop::Refused(passed_on(fault)),
        listing::Stop::Full => Stop::Full,
    };
    Listed { stop, count: listing.count as u64, position: listing.position as u64 }
}

impl Counts {
    pub fn add(&mut self, other: Counts) {
        let Counts {
            texts,
            tokens,
            annotations,
            listings,
            readings,
            parts,
            signs,
            messages,
            moves,
            full,
            strings,
            items,
            strictly,
            escapes,
            refusals,
            annotation_refusals,
            list_refusals,
            item_refusals,
            namings,
            name_refusals,
            named,
            name_texts,
            literals,
            values,
            value_refusals,
            nests,
            folds,
            fold_refusals,
        } = other;
        self.texts += texts;
        self.tokens += tokens;
        self.annotations += annotations;
        self.listings += listings;
        self.readings += readings;
        self.parts += parts;
        self.signs += signs;
        self.messages += messages;
        self.moves += moves;
        self.full += full;
        self.strings += strings;
        self.items += items;
        self.strictly += strictly;
        self.escapes += escapes;
        self.namings += namings;
        self.name_texts += name_texts;
        for (sum, more) in self.named.iter_mut().flatten().zip(named.into_iter().flatten()) {
            *sum += more;
        }
        self.literals += literals;
        self.values += values;
        self.nests += nests;
        self.folds += folds;
        let sums = [
            (&mut self.refusals, refusals),
            (&mut self.annotation_refusals, annotation_refusals),
            (&mut self.list_refusals, list_refusals),
            (&mut self.name_refusals, name_refusals),
            (&mut self.value_refusals, value_refusals),
            (&mut self.fold_refusals, fold_refusals),
        ];
        for (sum, more) in sums.into_iter().chain(self.item_refusals.iter_mut().zip(item_refusals)) {
            for (number, count) in more {
                *sum.entry(number).or_default() += count;
            }
        }
    }

    /// Compares everything that can be asked of a short text, and a few listings of it.
    pub fn text(&mut self, bytes: &[u8], chance: &mut Texts) {
        self.texts += 1;
        let checked = ours::utf8_check(bytes);
        let expected = oracle::utf8(bytes).map(|_| ()).map_err(|numbers| numbers.map(u64::from));
        assert_eq!(checked, expected, "UTF-8 check of {}", shown(bytes));
        let ignored = ignored(self.texts);
        let all = asked(bytes, self.texts);
        for &settings in all {
            for position in 0..bytes.len() + 3 {
                self.token(bytes, settings, ignored, position);
                self.fold(bytes, settings, ignored, position);
            }
            let start = chance.below(bytes.len() + 2);
            let budget = chance.below(5);
            let room = chance.below(4 * RECORD);
            self.listing(bytes, settings, ignored, 0, usize::MAX, RECORD * bytes.len());
            self.listing(bytes, settings, ignored, start, budget, room);
        }
        for position in 0..bytes.len() {
            let lenient = ours::parse(bytes, ours::ALLOW_CONFUSING, position).0;
            if all.iter().any(|settings| settings.strict_digits) {
                self.strictly(bytes, lenient, position);
            }
            match lenient {
                Found::Token { kind, offset, len } => self.readers(bytes, [kind, offset, len], chance),
                Found::Refused(refused) => {
                    self.message(refused.number, refused.values, 64);
                    self.message(refused.number, refused.values, chance.below(64));
                }
                Found::Nothing => {}
            }
        }
        self.made_up(bytes, chance);
    }

    /// What strict lexing gives at a position: a token that is the readers' as well, since it is the one that they are asked for; and of
    /// each error its message, or that it has none.
    fn strictly(&mut self, bytes: &[u8], lenient: Found, position: usize) {
        for settings in [ours::STRICT_DIGITS, ours::STRICT_DIGITS | ours::ALLOW_CONFUSING] {
            let strict = ours::parse(bytes, settings, position).0;
            match strict {
                Found::Token { .. } => {
                    assert_eq!(strict, lenient, "a strict token, for readers, of {} at {position}", shown(bytes));
                    self.strictly += 1;
                }
                Found::Refused(refused) if strict != lenient => self.message(refused.number, refused.values, 64),
                _ => {}
            }
        }
    }

    /// Compares one token and the annotation at a position, asked with both words of the settings.
    pub fn token(&mut self, bytes: &[u8], settings: Settings, ignored: u32, position: usize) {
        let token = expected_token(bytes, settings, position);
        let annotation = expected_annotation(bytes, settings, position);
        for settings in words(settings, ignored) {
            let asked = || format!("of {} at {position}, settings {settings:#x}", shown(bytes));
            assert_eq!(ours::parse(bytes, settings, position), token, "token {}", asked());
            assert_eq!(ours::annotation(bytes, settings, position), annotation, "annotation {}", asked());
        }
        if let Some(refused) = token.0.refused() {
            *self.refusals.entry(refused.number).or_default() += 1;
        }
        if let Some(refused) = annotation.refused() {
            *self.annotation_refusals.entry(refused.number).or_default() += 1;
        }
        self.tokens += 1;
        self.annotations += 1;
    }

    /// Compares a listing, asked with both words of the settings: its report, every byte of the list, and the bytes around it.
    pub fn listing(
        &mut self,
        bytes: &[u8],
        settings: Settings,
        ignored: u32,
        start: usize,
        budget: usize,
        room: usize,
    ) {
        let mut expected_list = vec![CANARY; room + 2 * MARGIN];
        let expected = expected_listing(bytes, settings, start, budget, &mut expected_list[MARGIN..MARGIN + room]);
        for settings in words(settings, ignored) {
            let mut list = vec![CANARY; room + 2 * MARGIN];
            let listed = ours::list(bytes, settings, start, budget, &mut list[MARGIN..MARGIN + room]);
            let asked = || {
                let bytes = shown(bytes);
                format!("listing of {bytes} from {start}, settings {settings:#x}, budget {budget}, room {room}")
            };
            assert_eq!(listed, expected, "{}", asked());
            assert!(list == expected_list, "bytes of the list: {}", asked());
        }
        if let Stop::Refused(refused) = expected.stop {
            *self.list_refusals.entry(refused.number).or_default() += 1;
        }
        self.listings += 1;
    }
}

/// A text as a Rust literal, cut where it is long.
pub fn shown(bytes: &[u8]) -> String {
    let cut = &bytes[..bytes.len().min(400)];
    format!("b\"{}\"{}", cut.escape_ascii(), if cut.len() < bytes.len() { ".." } else { "" })
}
