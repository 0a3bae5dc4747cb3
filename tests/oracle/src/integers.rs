//! The value of an integer (docs/RULES.md, 17): by the standard, reckoned in numbers of any size, and by the original's
//! parser.

use crate::Error;
use crate::parser::{self, Parse, ParseBuffer};
use std::cmp::Ordering;

/// The refusal of a literal that is no word of so many bits, by 40.
#[derive(Clone, Copy, Debug, PartialEq, Eq)]
pub struct OutOfRange;

/// The word of so many bits, at most 64, that a literal is. Without a sign it is the number, below 2^bits; with one a
/// number of the signed range, from -2^(bits-1) to 2^(bits-1) - 1, by its two's complement.
pub fn integer(literal: &str, bits: u32) -> Result<u64, OutOfRange> {
    let unsigned = literal.trim_start_matches(['+', '-']);
    let (digits, radix) = unsigned.strip_prefix("0x").map_or((unsigned, 10), |digits| (digits, 16));
    let number = Natural::of(digits, radix);
    let (all, half) = (Natural::power_of_two(bits), Natural::power_of_two(bits - 1));
    let (passes, negative) = match literal.as_bytes()[0] {
        b'+' => (number < half, false),
        b'-' => (number <= half, true),
        _ => (number < all, false),
    };
    if !passes {
        return Err(OutOfRange);
    }
    let (number, all) = (number.small(), all.small());
    let word = if negative { (all - number) % all } else { number };
    Ok(u64::try_from(word).expect("a word of at most 64 bits"))
}

/// What the original reads for an `i32` or an `i64`, as the word of so many bits; what it refuses it calls out of range.
pub fn by_the_original(literal: &str, bits: u32) -> Result<u64, OutOfRange> {
    fn parsed<T: for<'a> Parse<'a>>(literal: &str) -> Result<T, Error> {
        let buffer = ParseBuffer::new(literal)?;
        parser::parse(&buffer)
    }
    let read = match bits {
        32 => parsed::<i32>(literal).map(|value| u64::from(value as u32)),
        64 => parsed::<i64>(literal).map(|value| value as u64),
        _ => panic!("no integer has {bits} bits"),
    };
    read.map_err(|error| {
        let message = format!("invalid i{bits} number: constant out of range");
        assert_eq!(error.to_string(), message, "{literal:?}");
        OutOfRange
    })
}

/// A natural number of any size: its digits to the base 2^32, the least first, and no zero the last.
#[derive(PartialEq, Eq)]
struct Natural(Vec<u32>);

impl Natural {
    /// The number that digits are, underscores passed over.
    fn of(digits: &str, radix: u32) -> Natural {
        let digits = digits.chars().filter(|c| *c != '_').map(|c| c.to_digit(radix).expect("a digit"));
        digits.fold(Natural(Vec::new()), |number, digit| number.times_plus(radix, digit))
    }

    fn power_of_two(exponent: u32) -> Natural {
        (0..exponent).fold(Natural(vec![1]), |number, _| number.times_plus(2, 0))
    }

    /// factor * self + summand
    fn times_plus(mut self, factor: u32, summand: u32) -> Natural {
        let mut carry = u64::from(summand);
        for digit in &mut self.0 {
            // at most (2^32 - 1) * (2^32 - 1) + 2^32 - 1, which is below 2^64
            carry += u64::from(*digit) * u64::from(factor);
            *digit = carry as u32;
            carry >>= 32;
        }
        if carry > 0 {
            self.0.push(carry as u32);
        }
        self
    }

    /// The number where it has at most four digits.
    fn small(&self) -> u128 {
        assert!(self.0.len() <= 4, "a number below 2^128");
        self.0.iter().rev().fold(0, |number, digit| number << 32 | u128::from(*digit))
    }
}

impl PartialOrd for Natural {
    fn partial_cmp(&self, other: &Natural) -> Option<Ordering> {
        let by_digits = || self.0.iter().rev().cmp(other.0.iter().rev());
        Some(self.0.len().cmp(&other.0.len()).then_with(by_digits))
    }
}
