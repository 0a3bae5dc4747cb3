//! Strict digits (docs/RULES.md, 5), which the original does not have: a model over its answers. What it read at a position is
//! searched for the first pair of underscores among the digits of a `\u{..}`; the second of them is refused by 25, and what was read
//! behind it does not count. Without such a pair the original's answer stands.

use crate::Fault;

/// The number of the refusal, DoubleUnderscore.
pub const DOUBLE_UNDERSCORE: u8 = 25;

/// The refusal in what the original read from a position up to the one afterwards, if there is one. Where it stopped at an error it
/// read no further than that: a digit that overflows before the pair, and all else that comes first, keeps its own number.
pub fn refused(text: &str, position: usize, after: usize) -> Option<Fault> {
    let read = &text.as_bytes()[position..after];
    let place = position + second_underscore(read)?;
    Some(Fault { number: DOUBLE_UNDERSCORE, data: [0, 0], place })
}

/// Where the second underscore of the first pair stands in bytes that the original read as one token, or up to an error.
fn second_underscore(read: &[u8]) -> Option<usize> {
    // only runs of idchars and strings have escapes: comments, white space and punctuation have none
    if !read.first().is_some_and(|first| first.is_ascii_graphic() && !b"();,[]{}".contains(first)) {
        return None;
    }
    let mut in_string = false;
    let mut at = 0;
    while at < read.len() {
        match read[at] {
            b'"' => in_string = !in_string,
            b'\\' if in_string => {
                if let Some(digits) = read[at..].strip_prefix(b"\\u{") {
                    let count = digits.iter().take_while(|digit| digit.is_ascii_hexdigit() || **digit == b'_').count();
                    if let Some(pair) = digits[..count].windows(2).position(|two| two == b"__") {
                        return Some(at + 3 + pair + 1);
                    }
                }
                // what is escaped ends no string and begins no escape
                at += 1;
            }
            _ => {}
        }
        at += 1;
    }
    None
}
