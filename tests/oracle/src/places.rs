//! The place counter (docs/RULES.md, 14): a line and a column, each from 1, and whether the last byte passed is a CR. The
//! original has none.

#[derive(Clone, Copy, Debug, PartialEq, Eq)]
pub struct Place {
    pub line: u32,
    pub column: u32,
    pub after_cr: bool,
}

/// The place after the bytes, counted line by line; nothing where a line or a column would pass what 32 bits hold, at any
/// byte.
pub fn moved(from: Place, bytes: &[u8]) -> Option<Place> {
    let after_cr = bytes.last().map_or(from.after_cr, |byte| *byte == b'\r');
    // a LF that belongs to the CR before it ends no line
    let (bytes, column) = match bytes.strip_prefix(b"\n") {
        Some(rest) if from.after_cr => (rest, 1),
        _ => (bytes, from.column),
    };
    // a character to each byte, and LF for every line end
    let text: String = bytes.iter().copied().map(char::from).collect();
    let text = text.replace("\r\n", "\n").replace('\r', "\n");
    let mut place = Place { after_cr, ..from };
    for (ends, rest) in text.split('\n').enumerate() {
        let start = if ends == 0 { column } else { 1 };
        place.line = from.line.checked_add(u32::try_from(ends).ok()?)?;
        place.column = start.checked_add(u32::try_from(rest.chars().count()).ok()?)?;
    }
    Some(place)
}
