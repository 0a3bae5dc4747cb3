//! Texts of forms: closed, left open and closed too often, around the deepest level and away from it, with parentheses in
//! strings and comments, and with errors.

use crate::forms::LEVELS;
use crate::texts::{Texts, every};

/// What a small grammar's texts are made of: parentheses, and what hides them.
const SYMBOLS: [&str; 9] = ["(", ")", "a", " ", "(;", ";)", "\"", ";;", "\n"];

/// Every text of up to `most` of the symbols, behind a front and before an end.
pub fn grammar(front: &str, most: usize, end: &str, each: &mut impl FnMut(&str)) {
    every(&SYMBOLS.map(str::as_bytes), most, &mut front.into(), &mut |text| {
        let whole = [text, end.as_bytes()].concat();
        each(std::str::from_utf8(&whole).expect("symbols are UTF-8"));
    });
}

/// Tokens that are no parentheses, most of them with some inside, and a space before what `(` would begin a comment with.
const HARMLESS: &[&str] = &[
    " ",
    "\n",
    "a",
    "$x",
    "0x1_0",
    "@x",
    ",",
    "\")\"",
    "\"(\"",
    "$\")\"",
    "@\"(\"",
    "\"\\29(;\"",
    "\";;\"",
    "(;);)",
    "(;( );)",
    "(;)(;););)",
    "(; \" ;)",
    "(;;)",
    " ;;)\n",
    " ;;(\r",
    " ;;(;\n",
    " ;;\"\r\n",
    "\"é語😀\"",
    "(;é)…;)",
    " ;;😀)\n",
];

/// What is an error, or one unless confusing characters are allowed, or one where digits are strict, or one behind `(`; an
/// open comment and an open string reach far.
const TROUBLE: &[&str] = &[
    "(;",
    "(;(;)",
    "\"",
    "\"(;",
    "é",
    "\u{1}",
    "\"\n\"",
    "\"\\q\"",
    "\"\\4g\"",
    "\"\\)\"",
    "\"\\u)\"",
    "\"\\u{4)\"",
    "\"\\u{100000000}\"",
    "\"\\u{d800}\"",
    "\"\\u{4_}\"",
    "\"\\u{4__1}\"",
    "$\"\\u{4__)}\"",
    "\"\u{202e}\"",
    "(;\u{2066};)",
    " ;;)\u{206c}\n",
    "$\"\\u{)}\"",
    ";;)\n",
    ";",
];

/// A text of some forms: one in four goes down to 60 to 70 levels, and up and down there; the others are shallow.
pub fn random(chance: &mut Texts) -> String {
    let deep = chance.below(4) == 0;
    let target = if deep { LEVELS - 4 + chance.below(11) } else { chance.below(6) };
    let trouble = [0, 20, 300][chance.below(3)];
    let mut nest = Nest { text: String::new(), open: 0, trouble };
    nest.to(target, chance);
    // up and down again, to other depths
    for _ in 0..chance.below(4) {
        let up = chance.below(if deep { 9 } else { 3 });
        nest.to(nest.open.saturating_sub(up), chance);
        nest.to(nest.open + chance.below(up + 3), chance);
    }
    let left = [0, 0, 0, 0, 1, 2][chance.below(6)];
    nest.to(left, chance);
    for _ in 0..[0, 0, 1, 2][chance.below(4)] {
        nest.text.push(')');
        nest.to(chance.below(3), chance);
    }
    nest.text
}

/// A text, how many of its forms are open, and that one piece in so many is an error, or none where that is 0.
struct Nest {
    text: String,
    open: usize,
    trouble: usize,
}

impl Nest {
    /// Opens or closes forms until so many are open, with other tokens and small forms between.
    fn to(&mut self, target: usize, chance: &mut Texts) {
        while self.open != target {
            if self.open < target {
                self.text.push('(');
                self.open += 1;
            } else {
                self.text.push(')');
                self.open -= 1;
            }
            match chance.below(6) {
                0 | 1 => self.piece(chance),
                2 => self.text.push_str(["()", "(a)", "((b))", "(@x \")\")", "(a)(b)"][chance.below(5)]),
                _ => {}
            }
        }
    }

    fn piece(&mut self, chance: &mut Texts) {
        let from = if self.trouble > 0 && chance.below(self.trouble) == 0 { TROUBLE } else { HARMLESS };
        self.text.push_str(from[chance.below(from.len())]);
    }
}
