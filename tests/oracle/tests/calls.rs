//! The listing call and `annotation`.

use oracle::lexer::Lexer;
use oracle::listing::{Listing, RECORD, Stop};
use oracle::numbers::of_kind;
use oracle::texts::Texts;
use oracle::{Fault, Oracle};

/// The listing of a text with so much room: its answer, and the records as pairs of length and kind.
fn list(text: &str, start: usize, budget: usize, room: usize) -> (Listing, Vec<(u32, u16)>) {
    let mut list = vec![0xaa; room];
    let listing = Oracle::new(text, false).list(start, budget, &mut list);
    let (records, rest) = list.split_at(listing.count * RECORD);
    assert!(rest.iter().all(|byte| *byte == 0xaa), "bytes past the records of {text:?} stay");
    let record = |bytes: &[u8]| {
        let (len, kind) = bytes.split_at(4);
        (u32::from_le_bytes(len.try_into().unwrap()), u16::from_le_bytes(kind.try_into().unwrap()))
    };
    (listing, records.chunks(RECORD).map(record).collect())
}

/// Text, start, budget and room; the reason, the position and the records, whose number is the count.
type Row<'r> = (&'r str, usize, usize, usize, Stop, usize, &'r [(u32, u16)]);

fn check(rows: &[Row]) {
    for &(text, start, budget, room, stop, position, records) in rows {
        let expected = Listing { stop, count: records.len(), position };
        let found = list(text, start, budget, room);
        assert_eq!(found, (expected, records.to_vec()), "{text:?} from {start}, budget {budget}, room {room}");
    }
}

const fn fault(number: u8, data: [u32; 2], place: usize) -> Stop {
    Stop::Fault(Fault { number, data, place })
}

#[test]
fn a_listing_stops_at_the_first_of_end_budget_error_and_no_room() {
    use Stop::{Budget, End, Full};
    let dangling = fault(10, [0, 0], 2);
    check(&[
        ("", 0, 9, 99, End, 0, &[]),
        // the end comes first
        ("", 0, 0, 0, End, 0, &[]),
        ("(a", 2, 0, 0, End, 2, &[]),
        ("(a", 0, 2, 12, End, 2, &[(1, 4), (1, 8)]),
        ("-0x1_0;; x\n", 0, 3, 18, End, 11, &[(6, 11 + 512 + 1024 + 2048), (4, 1), (1, 3)]),
        // then the budget
        ("(a", 0, 0, 99, Budget, 0, &[]),
        ("(a", 0, 1, 99, Budget, 1, &[(1, 4)]),
        ("(a", 0, 1, 6, Budget, 1, &[(1, 4)]),
        ("a (;", 0, 2, 99, Budget, 2, &[(1, 8), (1, 3)]),
        ("a (;", 0, 2, 12, Budget, 2, &[(1, 8), (1, 3)]),
        // then an error
        ("a (;", 0, 3, 99, dangling, 2, &[(1, 8), (1, 3)]),
        ("a (;", 0, 3, 12, dangling, 2, &[(1, 8), (1, 3)]),
        ("a (;", 0, 3, 17, dangling, 2, &[(1, 8), (1, 3)]),
        (r#"a"\u{d800}""#, 0, 9, 99, fault(19, [0xd800, 0], 8), 9, &[]),
        // then 33, which leaves the bytes over
        ("(a", 0, 9, 11, Full, 1, &[(1, 4)]),
        ("(a", 0, 9, 6, Full, 1, &[(1, 4)]),
        ("(a", 0, 9, 5, Full, 0, &[]),
        ("(a", 0, 9, 0, Full, 0, &[]),
        // a start anywhere
        ("(abc", 2, 9, 99, End, 4, &[(2, 8)]),
        ("(;\u{202e};)a", 0, 9, 99, fault(21, [0x202e, 0], 2), 7, &[]),
        // a position between CR and LF
        ("\"\r\n", 0, 9, 99, fault(12, [0xd, 0], 1), 2, &[]),
        ("\"\r\n", 2, 9, 99, End, 3, &[(1, 3)]),
    ]);
}

#[test]
fn the_original_goes_on_after_an_error() {
    // 10 and 11 repeat for ever
    for (text, number) in [("(;", 10), ("é", 11)] {
        for answer in Lexer::new(text).iter(0).take(5) {
            assert_eq!(Fault::from(answer.unwrap_err()).number, number);
        }
    }
    // a string error is passed
    let lexer = Lexer::new(r#""\q a"#);
    let answers: Vec<_> = lexer.iter(0).map(|answer| answer.map(|token| token.offset).map_err(Fault::from)).collect();
    assert_eq!(answers, [Err(Fault { number: 13, data: ['q'.into(), 0], place: 2 }), Ok(3), Ok(4)]);
}

#[test]
fn listings_called_again_go_on_as_the_original_does() {
    let mut texts = Texts::new(3);
    for _ in 0..50_000 {
        let text = texts.text(60);
        let mut answers = Vec::new();
        let mut position = 0;
        while position < text.len() && answers.len() < 20 {
            let (listing, records) = list(&text, position, texts.below(3), texts.below(20));
            answers.extend(records.into_iter().map(Ok));
            if let Stop::Fault(fault) = listing.stop {
                answers.push(Err(fault));
            }
            position = listing.position;
        }
        let lexer = Lexer::new(&text);
        let original = lexer.iter(0).take(answers.len());
        let original: Vec<_> =
            original.map(|answer| answer.map(|token| (token.len, of_kind(token.kind))).map_err(Fault::from)).collect();
        assert_eq!(answers, original, "{text:?}");
    }
}

/// An annotation's kind, offset and length.
type Annotation = Option<(u16, usize, u32)>;

#[test]
fn annotations() {
    let rows: &[(&str, usize, Result<Annotation, Fault>)] = &[
        ("@x", 0, Ok(Some((9, 0, 2)))),
        ("(@x y)", 1, Ok(Some((9, 1, 2)))),
        (r#"(@"a b")"#, 1, Ok(Some((9, 1, 6)))),
        ("@", 0, Ok(Some((9, 0, 1)))),
        // no `@`, also past the end and inside a character
        ("(@x", 0, Ok(None)),
        ("x", 0, Ok(None)),
        ("\"", 0, Ok(None)),
        ("(;", 0, Ok(None)),
        ("", 0, Ok(None)),
        ("@x", 2, Ok(None)),
        ("@x", 3, Ok(None)),
        ("@x", usize::MAX, Ok(None)),
        ("é", 1, Ok(None)),
        // another token
        (r#"@"a"b"#, 0, Ok(None)),
        (r#"@a"b""#, 0, Ok(None)),
        // an error
        (r#"@""#, 0, Err(Fault { number: 17, data: [0, 0], place: 2 })),
        (r#"a@"\q""#, 1, Err(Fault { number: 13, data: ['q' as u32, 0], place: 4 })),
    ];
    for (text, position, expected) in rows {
        let found = Oracle::new(text, false).annotation(*position);
        let found = found.map(|token| token.map(|token| (token.kind(), token.offset(), token.len())));
        assert_eq!(found, *expected, "{text:?} at {position}");
    }
}
