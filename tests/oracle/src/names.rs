//! Ids and annotations, with names of every sort, and what misses one.

use crate::readers::Token;
use crate::texts::{Texts, every};
use crate::{Fault, Oracle};
use std::borrow::Cow;

/// What the two tokens begin with.
pub const SIGILS: [&str; 2] = ["$", "@"];

/// The sorts of names, told apart by what the original's reader leaves.
#[derive(Clone, Copy, Debug, PartialEq, Eq, PartialOrd, Ord)]
pub enum Sort {
    /// a word
    Word,
    /// quoted, without an escape
    Plain,
    /// quoted, with one
    Escaped,
    /// quoted, and not UTF-8
    Wrong,
    /// `$` or `@` alone
    Nothing,
    /// `$""` or `@""`
    QuotedNothing,
}

impl Sort {
    /// All there are, in their order.
    pub const ALL: [Sort; 6] =
        [Sort::Word, Sort::Plain, Sort::Escaped, Sort::Wrong, Sort::Nothing, Sort::QuotedNothing];

    /// The sort of a token's name; nothing for a token of another kind.
    pub fn of(oracle: &Oracle, token: &Token) -> Option<Sort> {
        let quoted = token.len() > 1 && oracle.src(token)[1..].starts_with('"');
        Some(match (oracle.name(token)?, quoted) {
            (Ok(Cow::Borrowed(_)), false) => Sort::Word,
            (Ok(Cow::Borrowed(_)), true) => Sort::Plain,
            (Ok(Cow::Owned(_)), _) => Sort::Escaped,
            (Err(Fault { number: 22, .. }), _) => Sort::Wrong,
            (Err(_), false) => Sort::Nothing,
            (Err(_), true) => Sort::QuotedNothing,
        })
    }
}

/// What a small grammar's names are made of: idchars, escapes whose bytes are a character, the parts of one or none, and
/// what may stand raw in a string alone.
const PARTS: [&str; 12] = ["a", "$", "@", "\"", "\\ff", "\\c3", "\\a9", "\\61", "\\u{e9}", "\\n", "é", " "];

/// Every sequence of up to `most` of the parts behind `$` and `@`, bare and in quotes, and with them what is no name.
pub fn grammar(most: usize, each: &mut impl FnMut(&str)) {
    let parts = PARTS.map(str::as_bytes);
    for sigil in SIGILS {
        for quote in ["", "\""] {
            every(&parts, most, &mut [sigil, quote].concat().into(), &mut |text| {
                let whole = [text, quote.as_bytes()].concat();
                each(std::str::from_utf8(&whole).expect("parts are UTF-8"));
            });
        }
    }
}

const IDCHARS: &[u8] = b"0123456789abcdefghijklmnopqrstuvwxyzABCDEFGHIJKLMNOPQRSTUVWXYZ!#$%&'*+-./:<=>?@\\^_`|~";

/// Pairs of hexadecimal digits that are no character, or none yet.
const WRONG: [&str; 8] =
    ["\\80", "\\ff", "\\c3", "\\c0\\80", "\\e2\\80", "\\ed\\a0\\80", "\\f0\\9f\\98", "\\F4\\90\\80\\80"];

/// An Id or an Annotation, mostly of up to some 40 bytes and one in eight of some hundred, of each sort alike; one in eight
/// of them changed, so that it may be none.
pub fn random(chance: &mut Texts) -> String {
    let most = if chance.below(8) == 0 { 120 } else { 8 };
    let count = 1 + chance.below(most);
    let mut text = SIGILS[chance.below(2)].to_string();
    match Sort::ALL[chance.below(Sort::ALL.len())] {
        Sort::Word => text.extend((0..count).map(|_| char::from(IDCHARS[chance.below(IDCHARS.len())]))),
        Sort::Nothing => {}
        sort => {
            let mut elements = Vec::new();
            if sort != Sort::QuotedNothing {
                elements.extend((0..count).map(|_| raw(chance)));
            }
            if matches!(sort, Sort::Escaped | Sort::Wrong) {
                for _ in 0..=chance.below(count) {
                    let escaped = escape(chance);
                    elements.insert(chance.below(elements.len() + 1), escaped);
                }
            }
            if sort == Sort::Wrong {
                let wrong = WRONG[chance.below(WRONG.len())].to_string();
                elements.insert(chance.below(elements.len() + 1), wrong);
            }
            text += &format!("\"{}\"", elements.concat());
        }
    }
    if chance.below(8) == 0 {
        let at = chance.boundary(&text);
        match chance.below(3) {
            0 => text.truncate(at),
            1 => text.insert_str(at, ["\"", "\\", "$", "@", "\u{1}", "\"\""][chance.below(6)]),
            _ => _ = text.drain(..at),
        }
    }
    text
}

/// A character that may stand raw in a string.
fn raw(chance: &mut Texts) -> String {
    let c = if chance.below(4) == 0 { chance.any_char() } else { char::from(IDCHARS[chance.below(IDCHARS.len())]) };
    if c < ' ' || ['"', '\\', '\u{7f}'].contains(&c) { "_".to_string() } else { c.to_string() }
}

/// An escape, or a character by pairs of hexadecimal digits.
fn escape(chance: &mut Texts) -> String {
    let c = chance.any_char();
    match chance.below(3) {
        0 => ["\\t", "\\n", "\\r", "\\\"", "\\'", "\\\\"][chance.below(6)].to_string(),
        1 => format!("\\u{{{:x}}}", u32::from(c)),
        _ => c.to_string().bytes().map(|byte| format!("\\{byte:02x}")).collect(),
    }
}
