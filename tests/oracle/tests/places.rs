//! The place counter (docs/RULES.md, 14).

use oracle::places::{Place, moved};
use oracle::texts::Texts;

const LAST: u32 = u32::MAX;

const fn at(line: u32, column: u32) -> Place {
    Place { line, column, after_cr: false }
}

/// A place right behind a CR.
const fn cr(line: u32, column: u32) -> Place {
    Place { line, column, after_cr: true }
}

/// A place, the bytes, and the place after them.
type Row = (Place, &'static [u8], Option<Place>);

fn hold(rows: &[Row]) {
    for &(place, bytes, expected) in rows {
        assert_eq!(moved(place, bytes), expected, "{place:?} {:?}", bytes.escape_ascii().to_string());
    }
}

#[test]
fn lines_and_columns() {
    hold(&[
        (at(1, 1), b"abc", Some(at(1, 4))),
        // columns count bytes, also those that are no UTF-8
        (at(7, 9), "\u{e9}\t".as_bytes(), Some(at(7, 12))),
        (at(7, 9), b"\xff\x00\x0b\x0c\x85", Some(at(7, 14))),
        // the three line ends
        (at(7, 9), b"\n", Some(at(8, 1))),
        (at(7, 9), b"\r", Some(cr(8, 1))),
        (at(7, 9), b"\r\n", Some(at(8, 1))),
        (at(7, 9), b"a\nbc", Some(at(8, 3))),
        (at(7, 9), b"a\rbc", Some(at(8, 3))),
        (at(7, 9), b"a\r\nbc", Some(at(8, 3))),
        // two of them
        (at(7, 9), b"a\n\nbc", Some(at(9, 3))),
        (at(7, 9), b"a\r\rbc", Some(at(9, 3))),
        (at(7, 9), b"a\r\n\r\nbc", Some(at(9, 3))),
        (at(7, 9), b"a\n\rbc", Some(at(9, 3))),
        (at(7, 9), b"a\r\r\nbc", Some(at(9, 3))),
        (at(7, 9), b"a\r\n\nbc", Some(at(9, 3))),
        (at(7, 9), b"\n\r", Some(cr(9, 1))),
        (at(7, 9), b"\ra\n", Some(at(9, 1))),
    ]);
}

/// What follows a CR that was passed by another move.
#[test]
fn behind_a_cr() {
    hold(&[
        (cr(7, 1), b"\n", Some(at(7, 1))),
        (cr(7, 1), b"\na", Some(at(7, 2))),
        (cr(7, 1), b"\n\n", Some(at(8, 1))),
        (cr(7, 1), b"\n\r", Some(cr(8, 1))),
        (cr(7, 1), b"\r", Some(cr(8, 1))),
        (cr(7, 1), b"\r\n", Some(at(8, 1))),
        (cr(7, 1), b"a", Some(at(7, 2))),
        (cr(7, 1), b"a\n", Some(at(8, 1))),
        // the column restarts after either byte, wherever it was
        (cr(7, 9), b"\n", Some(at(7, 1))),
        (cr(7, 9), b"a", Some(at(7, 10))),
        // an empty move keeps everything
        (at(7, 9), b"", Some(at(7, 9))),
        (cr(7, 9), b"", Some(cr(7, 9))),
        (cr(LAST, LAST), b"", Some(cr(LAST, LAST))),
    ]);
}

#[test]
fn limits() {
    hold(&[
        (at(LAST, 1), b"a", Some(at(LAST, 2))),
        (at(LAST, 1), b"\n", None),
        (at(LAST, 1), b"\r", None),
        (at(LAST, 1), b"\r\n", None),
        (at(LAST - 1, 1), b"\r\n", Some(at(LAST, 1))),
        (at(LAST - 1, 1), b"\n\r", None),
        (at(LAST - 1, 1), b"\r\r\n", None),
        (at(LAST - 1, 1), b"\na\nb", None),
        // a LF after a CR begins no line
        (cr(LAST, 1), b"\n", Some(at(LAST, 1))),
        (cr(LAST, LAST), b"\na", Some(at(LAST, 2))),
        (cr(LAST, 1), b"\n\n", None),
        (cr(LAST, 1), b"\r", None),
        (cr(LAST, 1), b"a\n", None),
        // a full column, which a line end leaves
        (at(LAST - 1, LAST), b"\n", Some(at(LAST, 1))),
        (at(LAST - 1, LAST), b"\r", Some(cr(LAST, 1))),
        (at(LAST - 1, LAST), b"\r\n", Some(at(LAST, 1))),
        (at(1, LAST), b"a", None),
        (cr(1, LAST), b"a", None),
        (at(1, LAST - 1), b"a\n", Some(at(2, 1))),
        (at(1, LAST - 1), b"a\r", Some(cr(2, 1))),
        // refused on the way, though the line end would lead to a place that there is
        (at(1, LAST), b"a\n", None),
        (at(1, LAST), b"a\r", None),
        (at(1, LAST - 1), b"ab\r\n", None),
    ]);
}

/// Over some bytes piece by piece as over all at once.
#[test]
fn moves_compose() {
    let mut texts = Texts::new(5);
    let mut refused = 0;
    for _ in 0..100_000 {
        let bytes = texts.line_ends(12);
        let mut number = || if texts.below(2) == 0 { LAST - texts.below(6) as u32 } else { texts.any_number() };
        let place = Place { line: number(), column: number(), after_cr: texts.below(2) == 0 };
        let whole = moved(place, &bytes);
        refused += usize::from(whole.is_none());
        for cut in 0..=bytes.len() {
            let (first, second) = bytes.split_at(cut);
            let twice = moved(place, first).and_then(|place| moved(place, second));
            assert_eq!(twice, whole, "{place:?} {first:?} {second:?}");
        }
    }
    assert!((10_000..90_000).contains(&refused), "{refused} of the moves are refused");
}

/// How often `\r\n|\r|\n` is found, from left to right.
fn found(mut bytes: &[u8]) -> u32 {
    let mut count = 0;
    while !bytes.is_empty() {
        let newline = [&b"\r\n"[..], b"\r", b"\n"].into_iter().find(|newline| bytes.starts_with(newline));
        count += u32::from(newline.is_some());
        bytes = &bytes[newline.map_or(1, <[u8]>::len)..];
    }
    count
}

/// As many lines more as line ends are found: behind a CR those of it and the bytes, but for its own.
#[test]
fn line_ends_are_found() {
    let mut texts = Texts::new(6);
    for _ in 0..100_000 {
        let bytes = texts.line_ends(12);
        let lines = |from: Place| moved(from, &bytes).map(|to| to.line - from.line);
        assert_eq!(lines(at(7, 9)), Some(found(&bytes)), "{bytes:?}");
        assert_eq!(lines(cr(7, 9)), Some(found(&[b"\r", &bytes[..]].concat()) - 1), "{bytes:?}");
    }
}
