//! The program: its output for `tokens` is that of `wat-tokens` (docs/RULES.md, 15).

use std::collections::{HashMap, HashSet};
use std::io::Write;
use std::process::{Command, Stdio};

/// Runs the program on input that arrives in pieces of 1,000 bytes.
fn run(words: &[&str], input: &[u8]) -> (Option<i32>, String) {
    let mut program = Command::new(env!("CARGO_BIN_EXE_oracle"))
        .args(words)
        .stdin(Stdio::piped())
        .stdout(Stdio::piped())
        .stderr(Stdio::null())
        .spawn()
        .unwrap();
    let mut stdin = program.stdin.take().unwrap();
    for piece in input.chunks(1_000) {
        stdin.write_all(piece).unwrap();
        stdin.flush().unwrap();
    }
    drop(stdin);
    let output = program.wait_with_output().unwrap();
    (output.status.code(), String::from_utf8(output.stdout).unwrap())
}

fn check(words: &[&str], input: &[u8], lines: &[&str]) {
    let expected: String = ["kind offset length detail"].iter().chain(lines).flat_map(|line| [line, "\n"]).collect();
    assert_eq!(run(words, input), (Some(0), expected));
}

#[test]
fn the_example_of_document_01() {
    check(
        &["tokens"],
        b"-0x1_0;; x\n",
        &["integer 0 6 minus,hex,underscores", "line-comment 6 4 -", "whitespace 10 1 -", "end 11 3"],
    );
}

#[test]
fn every_kind() {
    check(
        &["tokens"],
        b"(;;)(\"a\" $a @a a A)10 +0x1 -1_0 inf -inf +nan -nan nan:0x1 -nan:0x1_0 1. 0x1.8 1e1_0;;",
        &[
            "block-comment 0 4 -",
            "lparen 4 1 -",
            "string 5 3 -",
            "whitespace 8 1 -",
            "id 9 2 -",
            "whitespace 11 1 -",
            "annotation 12 2 -",
            "whitespace 14 1 -",
            "keyword 15 1 -",
            "whitespace 16 1 -",
            "reserved 17 1 -",
            "rparen 18 1 -",
            "integer 19 2 none,dec,plain",
            "whitespace 21 1 -",
            "integer 22 4 plus,hex,plain",
            "whitespace 26 1 -",
            "integer 27 4 minus,dec,underscores",
            "whitespace 31 1 -",
            "inf 32 3 pos",
            "whitespace 35 1 -",
            "inf 36 4 neg",
            "whitespace 40 1 -",
            "nan 41 4 pos",
            "whitespace 45 1 -",
            "nan 46 4 neg",
            "whitespace 50 1 -",
            "nan-val 51 7 pos,plain",
            "whitespace 58 1 -",
            "nan-val 59 10 neg,underscores",
            "whitespace 69 1 -",
            "normal 70 2 dec,plain",
            "whitespace 72 1 -",
            "normal 73 5 hex,plain",
            "whitespace 78 1 -",
            "normal 79 5 dec,underscores",
            "line-comment 84 2 -",
            "end 86 36",
        ],
    );
}

#[test]
fn last_lines() {
    check(&["tokens"], b"", &["end 0 0"]);
    check(&["tokens"], b"a \"\\q\"", &["keyword 0 1 -", "whitespace 1 1 -", "error 13 4"]);
    check(&["tokens"], b"(;)", &["error 10 0"]);
    // no token line where the text isn't UTF-8
    check(&["tokens"], b"a b\xff", &["error 2 3"]);
    check(&["tokens"], b"a b\xe2\x80", &["error 2 3"]);
    check(&["tokens"], "(;\u{202e};)".as_bytes(), &["error 21 2"]);
    check(&["tokens", "--allow-confusing"], "(;\u{202e};)".as_bytes(), &["block-comment 0 7 -", "end 7 1"]);
}

#[test]
fn long_input() {
    check(&["tokens"], &[b'a'; 32_768], &["keyword 0 32768 -", "end 32768 1"]);
    check(&["tokens"], &[b'a'; 32_769], &["too-long"]);
    check(&["tokens"], &[0xff; 32_768], &["error 2 0"]);
    check(&["tokens"], &[0xff; 32_769], &["too-long"]);
}

#[test]
fn rows() {
    for what in ["lex", "utf8", "errors", "messages", "places", "records", "readers"] {
        let words = ["rows", what, "--rows", "50", "--seed", "7"];
        let (status, rows) = run(&words, b"");
        assert_eq!((status, rows.lines().count()), (Some(0), 50), "{what}");
        assert_eq!(run(&words, b""), (Some(0), rows), "{what}");
    }
}

/// There are 34 kinds, each with a number of its own.
#[test]
fn rows_of_kinds() {
    let (status, rows) = run(&["rows", "kinds"], b"");
    let numbers: HashSet<&str> = rows.lines().filter_map(|row| row.rsplit(' ').next()).collect();
    assert_eq!((status, rows.lines().count(), numbers.len()), (Some(0), 34, 34));
}

#[test]
fn recorded_answers() {
    let output = Command::new(env!("CARGO_BIN_EXE_oracle")).arg("record").output().unwrap();
    let kept = std::fs::read("../../crates/replay/data/answers").unwrap();
    assert!(output.stdout == kept, "crates/replay/data/answers is what 'oracle record' writes");
}

/// One token, annotation and listing are recorded with every settings' word, and 25 for each, which has no message.
#[test]
fn recorded_settings() {
    let kept = std::fs::read("../../crates/replay/data/answers").unwrap();
    let mut settings = HashSet::new();
    let mut doubles = [0; 4];
    for row in kept.chunks_exact(152).filter(|row| (1..4).contains(&row[0])) {
        settings.insert((row[0], row[1]));
        if row[12..20] == [2, 0, 0, 0, 25, 0, 0, 0] {
            assert!(row[1] & 2 != 0 && row[40] == 0, "{row:?}");
            doubles[usize::from(row[0])] += 1;
        }
    }
    assert_eq!(settings.len(), 3 * 4);
    assert!(doubles[1..].iter().all(|count| *count > 10), "{doubles:?}");
}

/// A number of a recorded row.
fn number(row: &[u8], at: usize) -> u32 {
    u32::from_le_bytes(row[at..at + 4].try_into().unwrap())
}

/// Names are recorded of both tokens that have one, as parts of the text and as copies, and every refusal but 1, without a
/// kind; and a damaged row for each of the words.
#[test]
fn recorded_names() {
    let kept = std::fs::read("../../crates/replay/data/answers").unwrap();
    let mut answers = HashMap::new();
    for row in kept.chunks_exact(152).filter(|row| row[0] == 5) {
        let [what, first, kind] = [12, 16, 36].map(|at| number(row, at));
        *answers.entry((what, if what == 2 { first } else { kind })).or_insert(0) += 1;
        assert_eq!(kind, if what == 2 { 0 } else { number(row, 8) }, "{row:?}");
    }
    let refusals = [2, 3, 4, 22, 23, 24, 30, 31, 32].map(|number| (2, number));
    for answer in [(1, 7), (1, 9), (3, 7), (3, 9)].into_iter().chain(refusals) {
        assert!(answers.remove(&answer) > Some(2), "{answer:?}");
    }
    assert!(answers.is_empty(), "{answers:?}");
    // one number or byte of a row of type 5 is another
    let mut damaged = HashSet::new();
    for row in kept.chunks_exact(152).filter(|row| row[0] == 128 + 5) {
        let differs = |whole: &[u8]| (1..152).filter(|&at| row[at] != whole[at]).collect::<Vec<_>>();
        let differ = kept.chunks_exact(152).filter(|row| row[0] == 5).map(differs).find(|differ| differ.len() == 1);
        damaged.insert(differ.expect("a row, but for a byte")[0]);
    }
    assert_eq!(damaged, HashSet::from([12, 16, 20, 24, 28, 36, 88, 151]));
}

/// 2 and 3 are no reader's: 31 where the token is there, whatever its kind, and asked of the tokens that they once read.
#[test]
fn recorded_numbers_without_a_reader() {
    let kept = std::fs::read("../../crates/replay/data/answers").unwrap();
    for (reader, kind) in [(2, 7), (3, 9)] {
        let mut asked = 0;
        for row in kept.chunks_exact(152).filter(|row| row[0] == 4 && row[1] == reader) {
            assert!(number(row, 12) == 2 && [2, 3, 4, 30, 31].contains(&number(row, 16)), "{row:?}");
            asked += usize::from((number(row, 8), number(row, 16)) == (kind, 31));
        }
        assert!(asked > 5, "{reader}: {asked}");
    }
}

#[test]
fn usage() {
    for words in [
        &[][..],
        &["token"],
        &["tokens", "x"],
        &["rows"],
        &["rows", "lex", "--rows"],
        &["rows", "lex", "9"],
        &["rows", "words"],
        &["record", "9"],
        &["compare-tokens"],
    ] {
        assert_eq!(run(words, b""), (Some(2), String::new()), "{words:?}");
    }
    let (status, help) = run(&["--help"], b"");
    assert_eq!(status, Some(0));
    assert!(help.contains("oracle tokens") && help.contains("oracle rows"));
}
