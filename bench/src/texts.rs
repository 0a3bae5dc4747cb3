//! The texts that are timed: each is made of pieces of one sort, and is the same in each run.

/// A generator of numbers, the same in each run.
pub struct Chance(u64);

impl Chance {
    fn below(&mut self, n: u64) -> u64 {
        self.0 ^= self.0 << 13;
        self.0 ^= self.0 >> 7;
        self.0 ^= self.0 << 17;
        self.0 % n
    }

    fn pick<'a>(&mut self, words: &[&'a str]) -> &'a str {
        words[self.below(words.len() as u64) as usize]
    }

    /// Some words, as `words` has them, between an opening and a closing.
    fn wrapped(
        &mut self,
        text: &mut String,
        [open, close]: [&str; 2],
        [least, most]: [u64; 2],
        words: &[&str],
    ) {
        text.push_str(open);
        self.words(text, least, most, words);
        text.push_str(close);
    }

    /// Some words, from `least` on and fewer than `most`.
    fn words(&mut self, text: &mut String, least: u64, most: u64, words: &[&str]) {
        for _ in 0..least + self.below(most - least) {
            text.push_str(self.pick(words));
        }
    }
}

pub type Piece = fn(&mut Chance, &mut String);

/// A text of at most `size` bytes, made of whole pieces.
pub fn text(size: usize, piece: Piece) -> String {
    let mut chance = Chance(0x9e37_79b9_7f4a_7c15);
    let mut text = String::with_capacity(size + 4096);
    let mut end = 0;
    while text.len() <= size {
        end = text.len();
        piece(&mut chance, &mut text);
    }
    text.truncate(end);
    text
}

/// What is listed.
pub const TEXTS: [(&str, Piece); 21] = [
    ("whitespace", whitespace),
    ("whitespace, short runs", short_runs),
    ("whitespace, long runs", long_runs),
    ("comments, line and block", comments),
    ("line comments", line_comments),
    ("block comments", block_comments),
    ("nested block comments", nested_comments),
    ("marks of nested comments alone", marks),
    ("block comments that hold code", comments_of_code),
    ("comments with dashes and quotes", typeset_comments),
    ("comments of box drawing", drawn_comments),
    ("comments of dots", dotted_comments),
    ("short comments with quotes", quoted_comments),
    ("numbers", numbers),
    ("ordinary WAT", ordinary),
    ("varied WAT", varied),
    ("much non-ASCII", foreign),
    ("strings with emoji", emoji_strings),
    ("strings of Cyrillic and Japanese", foreign_strings),
    ("strings of dots and Thai", dotted_strings),
    ("comments of emoji", emoji_comments),
];

fn whitespace(chance: &mut Chance, text: &mut String) {
    chance.words(text, 4, 64, &[" ", " ", "  ", "\n", "\t", "        "]);
    text.push_str(chance.pick(&["(", ")", "x"]));
}

fn short_runs(chance: &mut Chance, text: &mut String) {
    chance.words(text, 1, 5, &[" ", " ", "\n", "\t", "\r\n"]);
    text.push_str(chance.pick(&["(", ")", "x"]));
}

fn long_runs(chance: &mut Chance, text: &mut String) {
    chance.words(text, 20, 400, &["\n", "    ", "\t\t", "            "]);
    text.push_str(chance.pick(&["(", ")", "x"]));
}

const PLAIN: [&str; 8] = [
    "merge ",
    "the ",
    "upper ",
    "layer ",
    "over ",
    "files, ",
    "whiteout ",
    "and (so) on ",
];

const LINE: [&str; 2] = [";; ", "\n"];
const BLOCK: [&str; 2] = ["(; ", ";)\n"];
const DATA: [&str; 2] = ["(data \"", "\")\n"];

/// The marks of a block or of a line comment.
fn any_marks(chance: &mut Chance) -> [&'static str; 2] {
    if chance.below(2) == 0 { BLOCK } else { LINE }
}

fn comments(chance: &mut Chance, text: &mut String) {
    let marks = any_marks(chance);
    chance.wrapped(text, marks, [2, 18], &PLAIN);
}

fn line_comments(chance: &mut Chance, text: &mut String) {
    chance.wrapped(text, LINE, [2, 18], &PLAIN);
}

fn block_comments(chance: &mut Chance, text: &mut String) {
    chance.wrapped(text, BLOCK, [2, 18], &PLAIN);
}

fn nested_comments(chance: &mut Chance, text: &mut String) {
    let depth = 1 + chance.below(12) as usize;
    for _ in 0..depth {
        text.push_str("(;");
        chance.words(text, 0, 4, &["a", "a;b(c)", " ", "the rule "]);
    }
    for _ in 0..depth {
        chance.words(text, 0, 4, &["a", "a;b(c)", " ", "the rule "]);
        text.push_str(";)");
    }
    text.push('\n');
}

fn marks(_: &mut Chance, text: &mut String) {
    text.push_str("(;(;(;(;(;(;(;(;;);););););););) ");
}

fn comments_of_code(chance: &mut Chance, text: &mut String) {
    text.push_str("(;\n");
    for _ in 0..1 + chance.below(8) {
        ordinary(chance, text);
    }
    text.push_str(";)\n");
}

fn typeset_comments(chance: &mut Chance, text: &mut String) {
    let marks = any_marks(chance);
    let words = [
        "merge — ",
        "the ",
        "“upper” ",
        "layer’s ",
        "over ",
        "files… ",
        "whiteout – ",
        "and so on ",
    ];
    chance.wrapped(text, marks, [2, 18], &words);
}

fn drawn_comments(chance: &mut Chance, text: &mut String) {
    let words = ["│ ", "├── ", "└── ", "layer", "────", "✓ "];
    chance.wrapped(text, LINE, [4, 24], &words);
}

/// The dots begin with the two bytes with which most confusing characters do.
fn dotted_comments(chance: &mut Chance, text: &mut String) {
    chance.wrapped(text, LINE, [4, 24], &["…", "…… ", "… ", "………"]);
}

fn quoted_comments(chance: &mut Chance, text: &mut String) {
    text.push_str(chance.pick(&["(; “a” ;)\n", "(; ‘b’ ;)\n", "(; — ;)\n"]));
}

fn numbers(chance: &mut Chance, text: &mut String) {
    match chance.below(5) {
        0 => text.push_str(&format!("{}", chance.below(1000))),
        1 => text.push_str(&format!("-{}", chance.below(1 << 40))),
        2 => text.push_str(&format!("0x{:x}", chance.below(1 << 32))),
        3 => text.push_str(&format!(
            "{}.{}e-{}",
            chance.below(100),
            chance.below(10_000),
            chance.below(30)
        )),
        _ => text.push_str(&format!("{}_{:03}", chance.below(1000), chance.below(1000))),
    }
    text.push(' ');
}

pub fn ordinary(chance: &mut Chance, text: &mut String) {
    text.push_str("  (func $f");
    text.push_str(&chance.below(10_000).to_string());
    text.push_str(" (param $x i32) (result i32)\n    local.get $x ;; the argument\n    i32.const ");
    text.push_str(&chance.below(1 << 20).to_string());
    text.push_str("\n    i32.add\n    call $");
    text.push_str(chance.pick(&["merge", "whiteout", "copy_up", "opaque"]));
    text.push_str(")\n  (data (i32.const 8) \"layer\\00\\ff upper\")\n");
}

const NAMES: [&str; 8] = [
    "$merge",
    "$whiteout_of_the_lower_layer",
    "$x",
    "$copy-up.17",
    "$\"quoted name\"",
    "$opaque!",
    "$f32x4",
    "$a_rather_long_name_for_a_local",
];

/// Words, names, strings, integers and floats of many lengths, in no fixed order.
pub fn varied(chance: &mut Chance, text: &mut String) {
    for _ in 0..1 + chance.below(6) {
        match chance.below(12) {
            0..3 => text.push_str(chance.pick(&[
                "i32.add",
                "local.get",
                "call",
                "i64x2.extmul_high_i32x4_u",
                "br_if",
                "memory.copy",
                "end",
                "param",
            ])),
            3..6 => text.push_str(chance.pick(&NAMES)),
            6 => {
                let bits = 4 + chance.below(40);
                text.push_str(&chance.below(1 << bits).to_string());
            }
            7 => text.push_str(&format!("-0x{:x}", chance.below(1 << 32))),
            8 => text.push_str(&format!("{}.{}", chance.below(1000), chance.below(100_000))),
            9 => text.push_str(&format!("{}e+{}", chance.below(100), chance.below(300))),
            10 => text.push_str(chance.pick(&[
                "\"env\"",
                "\"upper/layer\"",
                "\"\"",
                "\"a longer text, with no escape in it\"",
            ])),
            _ => text.push_str(chance.pick(&[
                "\"\\00\\01\\02\"",
                "\"line\\n\"",
                "\"\\u{1f600}\"",
                "\"tab\\tand \\\"quotes\\\"\"",
            ])),
        }
        text.push_str(chance.pick(&[" ", "\n", "\n    ", ") (", " (", ")\n  "]));
    }
    if chance.below(8) == 0 {
        text.push('\n');
        line_comments(chance, text);
    }
}

fn foreign(chance: &mut Chance, text: &mut String) {
    let words = [
        "слой ",
        "層を重ねる ",
        "fusión ",
        "합치기 ",
        "Überlagerung ",
        "层 ",
    ];
    chance.wrapped(text, LINE, [4, 16], &words);
    text.push_str("(import \"слой\" \"層\" (func $f))\n");
}

fn emoji_strings(chance: &mut Chance, text: &mut String) {
    let words = ["😀", "✓ done", "layer ", "— ", "🎉🎉", "“merge”"];
    chance.wrapped(text, DATA, [2, 12], &words);
}

fn foreign_strings(chance: &mut Chance, text: &mut String) {
    let words = ["слой ", "層を重ねる", "layer ", "fusión "];
    chance.wrapped(text, DATA, [2, 12], &words);
}

fn dotted_strings(chance: &mut Chance, text: &mut String) {
    chance.wrapped(text, DATA, [2, 12], &["…", "ภาษา", "ไทย ", "a…"]);
}

fn emoji_comments(chance: &mut Chance, text: &mut String) {
    chance.wrapped(text, LINE, [4, 24], &["😀", "🎉🎉", "🚀 ", "👍🏽"]);
}

/// A string that is refused at its escape; lexing goes on behind it.
pub fn errors(_: &mut Chance, text: &mut String) {
    text.push_str("\"\\q");
}

/// A rule file of 100 bytes.
pub const RULE: &str = "(merge\n  (layer $upper \"sha256:ab\") ;; above\n  (whiteout \"/etc/cron.d\")\n  (opaque 0x1f 12))\n(end)  \n";
