//! Literals of integers, at the edges of 32 and 64 bits and away from them.

use crate::texts::{Texts, every};

/// The exponents of the powers of two at which a range ends.
const EDGES: [u32; 4] = [31, 32, 63, 64];

const SIGNS: [&str; 3] = ["", "+", "-"];

/// How underscores stand between digits: nowhere, before the last digit, everywhere.
const UNDERSCORES: [fn(&str) -> String; 3] = [str::to_string, before_the_last, everywhere];

fn before_the_last(digits: &str) -> String {
    let (first, last) = digits.split_at(digits.len() - 1);
    if first.is_empty() { last.to_string() } else { format!("{first}_{last}") }
}

fn everywhere(digits: &str) -> String {
    digits.chars().map(String::from).collect::<Vec<_>>().join("_")
}

/// Literals of the numbers 0 to 2 and of those at most 2 away from an edge, each with its number: with each sign, in
/// both radices and cases, with 0, 1, 16 and 1,000 zeros in front, and with underscores.
pub fn edges() -> Vec<(String, i128)> {
    let near = EDGES.iter().flat_map(|exponent| (1_i128 << exponent) - 2..=(1 << exponent) + 2);
    let mut literals = Vec::new();
    for number in (0..=2).chain(near) {
        for sign in SIGNS {
            let signed = if sign == "-" { -number } else { number };
            let spelled = [("", number.to_string()), ("0x", format!("{number:x}")), ("0x", format!("{number:X}"))];
            for (prefix, digits) in spelled {
                for zeros in [0, 1, 16, 1_000] {
                    let digits = format!("{}{digits}", "0".repeat(zeros));
                    literals.extend(UNDERSCORES.map(|apart| (format!("{sign}{prefix}{}", apart(&digits)), signed)));
                }
            }
        }
    }
    literals
}

/// What a small grammar's literals are made of: digits, and front parts of the numbers at the edges.
const SYMBOLS: [&str; 17] = [
    "_",
    "0",
    "1",
    "5",
    "6",
    "7",
    "8",
    "9",
    "a",
    "F",
    "214748364",
    "429496729",
    "922337203685477580",
    "1844674407370955161",
    "7fffffff",
    "80000000",
    "FFFFFFFF",
];

/// Every literal of a sign or none, `0x` or none, and up to `most` of the symbols, and with them what misses one.
pub fn grammar(most: usize, each: &mut impl FnMut(&str)) {
    let symbols = SYMBOLS.map(str::as_bytes);
    for sign in SIGNS {
        for prefix in ["", "0x"] {
            let mut text = format!("{sign}{prefix}").into_bytes();
            every(&symbols, most, &mut text, &mut |text| each(std::str::from_utf8(text).expect("symbols are UTF-8")));
        }
    }
}

/// A literal of 1 to 40 digits and some zeros in front: of a number near a power of two, of one with any number of
/// bits, or of any digits.
pub fn random(chance: &mut Texts) -> String {
    let hex = chance.below(2) == 0;
    let digits = match chance.below(3) {
        0 => {
            let power = 1_u128 << [31, 32, 63, 64, 65, 96, 127][chance.below(7)];
            let bits = chance.below(20);
            let away = chance.below(1 << bits) as u128;
            spelled(if chance.below(2) == 0 { power + away } else { power - away }, hex)
        }
        1 => spelled(chance.wide() >> chance.below(128), hex),
        _ => (0..=chance.below(40)).map(|_| digit(chance, hex)).collect(),
    };
    let zeros = "0".repeat([0, 0, 0, 1, 2, 30][chance.below(6)]);
    let mut literal = format!("{}{}", SIGNS[chance.below(3)], if hex { "0x" } else { "" });
    let apart = [2, 10, 1_000][chance.below(3)];
    for (i, digit) in zeros.chars().chain(digits.chars()).enumerate() {
        if i > 0 && chance.below(apart) == 0 {
            literal.push('_');
        }
        literal.push(if chance.below(2) == 0 { digit.to_ascii_uppercase() } else { digit });
    }
    literal
}

fn spelled(number: u128, hex: bool) -> String {
    if hex { format!("{number:x}") } else { number.to_string() }
}

fn digit(chance: &mut Texts, hex: bool) -> char {
    let radix = if hex { 16 } else { 10 };
    char::from_digit(chance.below(radix as usize) as u32, radix).expect("a digit")
}
