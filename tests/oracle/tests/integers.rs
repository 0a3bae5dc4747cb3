//! The values of integers (docs/RULES.md, 17): the model on its rows, and beside it the original's parser, which takes
//! more behind a `+`.

use oracle::integers::{OutOfRange, by_the_original, integer};
use oracle::literals::{edges, grammar, random};
use oracle::texts::Texts;
use oracle::{Answer, Oracle};

const WIDTHS: [u32; 2] = [32, 64];

/// Whether a text is one Integer token.
fn is_literal(text: &str) -> bool {
    match Oracle::new(text, false).parse(0).0 {
        Answer::Token(token) => token.kind() & 0xff == 11 && token.len() as usize == text.len(),
        _ => false,
    }
}

#[test]
fn rows() {
    // the words of 32 and of 64 bits
    let rows: &[(&str, Option<u64>, Option<u64>)] = &[
        // the request's
        ("-2147483648", Some(0x8000_0000), Some(0xffff_ffff_8000_0000)),
        ("+2147483648", None, Some(0x8000_0000)),
        ("4294967295", Some(0xffff_ffff), Some(0xffff_ffff)),
        ("4294967296", None, Some(0x1_0000_0000)),
        ("18446744073709551615", None, Some(u64::MAX)),
        ("18446744073709551616", None, None),
        // zeros
        ("0", Some(0), Some(0)),
        ("-0", Some(0), Some(0)),
        ("+0", Some(0), Some(0)),
        ("0x0", Some(0), Some(0)),
        ("-0x0_0", Some(0), Some(0)),
        // signs
        ("-1", Some(0xffff_ffff), Some(u64::MAX)),
        ("+2147483647", Some(0x7fff_ffff), Some(0x7fff_ffff)),
        ("-2147483649", None, Some(0xffff_ffff_7fff_ffff)),
        ("-4294967295", None, Some(0xffff_ffff_0000_0001)),
        ("+9223372036854775807", None, Some(0x7fff_ffff_ffff_ffff)),
        ("+9223372036854775808", None, None),
        ("-9223372036854775808", None, Some(0x8000_0000_0000_0000)),
        ("-9223372036854775809", None, None),
        ("-18446744073709551615", None, None),
        // radices, cases, underscores
        ("10", Some(10), Some(10)),
        ("0x10", Some(16), Some(16)),
        ("0xfF_Ff", Some(0xffff), Some(0xffff)),
        ("1_0_0", Some(100), Some(100)),
        ("-0x8000_0000", Some(0x8000_0000), Some(0xffff_ffff_8000_0000)),
        ("+0x80000000", None, Some(0x8000_0000)),
        ("0x1_0000_0000_0000_0000", None, None),
        // 2^64 + 1 and 2^128 + 1, which are 1 in too few bits
        ("18446744073709551617", None, None),
        ("340282366920938463463374607431768211457", None, None),
    ];
    for &(literal, word_32, word_64) in rows {
        assert!(is_literal(literal), "{literal}");
        assert_eq!((integer(literal, 32).ok(), integer(literal, 64).ok()), (word_32, word_64), "{literal}");
    }
    assert_eq!(integer(&format!("-{}1", "0_0".repeat(1_000)), 32), Ok(0xffff_ffff));
    assert_eq!(integer(&"9".repeat(1_000), 64), Err(OutOfRange));
}

/// At the edges the model says what arithmetic in 128 bits says.
#[test]
fn at_the_edges() {
    let edges = edges();
    for (literal, value) in &edges {
        assert!(is_literal(literal), "{literal}");
        for bits in WIDTHS {
            let (all, half) = (1_i128 << bits, 1_i128 << (bits - 1));
            let range = if literal.starts_with(['+', '-']) { -half..half } else { 0..all };
            let expected = if range.contains(value) { Ok(value.rem_euclid(all) as u64) } else { Err(OutOfRange) };
            assert_eq!(integer(literal, bits), expected, "{literal}, {bits} bits");
        }
    }
    assert_eq!(edges.len(), 2_484);
}

/// Compares the model with the original on a literal; true where the original takes what the model refuses.
fn original_takes_more(literal: &str, bits: u32) -> bool {
    let (model, original) = (integer(literal, bits), by_the_original(literal, bits));
    // the same without its sign fits, and has the first bit
    let unsigned = literal.strip_prefix('+').and_then(|rest| integer(rest, bits).ok());
    match unsigned.filter(|word| word >> (bits - 1) == 1) {
        Some(word) => {
            assert_eq!((model, original), (Err(OutOfRange), Ok(word)), "{literal}, {bits} bits");
            true
        }
        None => {
            assert_eq!(model, original, "{literal}, {bits} bits");
            false
        }
    }
}

/// The original reads every literal as the model does, but takes those with `+` from 2^(bits-1) to 2^bits - 1 too.
#[test]
fn the_original_takes_more_behind_a_plus() {
    for bits in WIDTHS {
        let mut more = 0;
        let mut literals = 0;
        let mut compare = |literal: &str| {
            literals += 1;
            more += usize::from(original_takes_more(literal, bits));
        };
        edges().iter().for_each(|(literal, _)| compare(literal));
        grammar(3, &mut |text| {
            if is_literal(text) {
                compare(text);
            }
        });
        let mut chance = Texts::new(7);
        for _ in 0..100_000 {
            let literal = random(&mut chance);
            assert!(is_literal(&literal), "{literal}");
            compare(&literal);
        }
        assert!(literals > 100_000 && more > 1_000, "{more} of {literals}, {bits} bits");
    }
    for (literal, bits) in [("+2147483648", 32), ("+4294967295", 32), ("+0x8000_0000_0000_0000", 64)] {
        assert!(original_takes_more(literal, bits), "{literal}");
    }
    for (literal, bits) in [("+2147483647", 32), ("+4294967296", 32), ("-2147483649", 32), ("+2147483648", 64)] {
        assert!(!original_takes_more(literal, bits), "{literal}");
    }
}
