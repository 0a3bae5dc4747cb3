//! The program `wat-tokens` against the oracle's `tokens`, byte for byte.

use crate::{MOST, tokens as listed};
use oracle::texts::Texts;
use std::io::{self, Write};
use std::process::{Command, Stdio};
use std::thread;

/// The rows on both sides of the line, and a text for each error and each last line.
const ROWS: &[&str] = &[
    "",
    "(;)",
    "(;;)",
    "(;(;;)",
    "1__0",
    "1.",
    "1.e5",
    "nan:0x",
    "+nan:0x",
    "a\"x\"",
    "\"a\"\"b\"",
    "$\"\"",
    "\"\\u{d800}\"",
    "\"\\u{1_}\"",
    "\"\\u{100000000}\"",
    "\"\\u{1__0}\"",
    "$\"\\ff\"",
    "(;\u{202e};)",
    ";;\u{202c}",
    "-0x1_0;; x\n",
    " é",
    "\"\u{1}\"",
    "\"\\q\"",
    "\"\\4g\"",
    "\"\\ux\"",
    "\"",
    "\"a\"b\"\u{202e}\"",
    "a b c (; ",
];

/// Inputs at the limits: of the length, of UTF-8, and of the parts in which the program lists.
fn limits() -> Vec<Vec<u8>> {
    let mut inputs: Vec<Vec<u8>> = Vec::new();
    for length in [MOST - 1, MOST, MOST + 1, MOST + 70_000] {
        for byte in [b'a', b'(', b' ', 0xff] {
            inputs.push(vec![byte; length]);
        }
        // the longest output
        inputs.push(b"1 ".iter().copied().cycle().take(length).collect());
        inputs.push([&vec![b','; length - 1][..], b"\xe2"].concat());
    }
    for tokens in [511, 512, 513, 1_023, 1_024, 1_025, 1_536] {
        for end in ["", "-nan:0x1_0", "\"\\q\"", "(;", "é"] {
            inputs.push([")".repeat(tokens).as_bytes(), end.as_bytes()].concat());
        }
    }
    inputs.push(b"a b\xff".to_vec());
    inputs.push(b"a b\xe2\x80".to_vec());
    inputs
}

/// What the program prints of an input that arrives in pieces of so many bytes.
fn printed(program: &str, input: &[u8], piece: usize) -> io::Result<Vec<u8>> {
    let mut child = Command::new(program).stdin(Stdio::piped()).stdout(Stdio::piped()).spawn()?;
    let mut stdin = child.stdin.take().expect("a pipe");
    let input = input.to_vec();
    let writer = thread::spawn(move || {
        // a program that has read enough closes the pipe
        for part in input.chunks(piece) {
            if stdin.write_all(part).is_err() {
                break;
            }
        }
    });
    let output = child.wait_with_output()?;
    writer.join().expect("a thread that ends");
    assert!(output.status.success(), "the program fails: {:?}", output.status);
    Ok(output.stdout)
}

/// Compares `program` with the oracle, and says on how many inputs they agree.
pub fn tokens(program: &str, texts: usize, seed: u64) -> io::Result<String> {
    let mut chance = Texts::new(seed);
    let mut inputs: Vec<(Vec<u8>, usize)> = ROWS.iter().map(|row| (row.as_bytes().to_vec(), 1)).collect();
    inputs.extend(limits().into_iter().map(|input| (input, 40_000)));
    for _ in 0..texts {
        // many short texts in one, so that tokens of each kind stand on both sides of every limit
        let mut input = Vec::new();
        for _ in 0..=chance.below(40) {
            match chance.below(400) {
                0 => input.extend(chance.bytes(40)),
                _ => input.extend(whole(&mut chance).into_bytes()),
            }
            input.push(b' ');
        }
        let piece = [1, 7, 4_096, 40_000][chance.below(4)];
        inputs.push((input, piece));
    }
    let compare = |inputs: &[(Vec<u8>, usize)]| -> io::Result<usize> {
        let mut lines = 0;
        for (input, piece) in inputs {
            let (ours, rust) = (printed(program, input, *piece)?, listed(input, false));
            assert!(ours == rust.as_bytes(), "the outputs differ for {:?}", String::from_utf8_lossy(input));
            lines += rust.lines().count();
        }
        Ok(lines)
    };
    let threads = thread::available_parallelism().map_or(1, usize::from);
    let lines = thread::scope(|scope| {
        let workers: Vec<_> =
            inputs.chunks(inputs.len().div_ceil(threads)).map(|part| scope.spawn(|| compare(part))).collect();
        workers
            .into_iter()
            .map(|worker| worker.join().expect("a thread that met no difference"))
            .sum::<io::Result<usize>>()
    })?;
    Ok(format!("wat-tokens: {} inputs, {lines} lines agree\n", inputs.len()))
}

/// A text that the lexer passes, mostly; one in 200 may have an error.
fn whole(chance: &mut Texts) -> String {
    loop {
        let text = chance.text(60);
        if chance.below(200) == 0 || !listed(text.as_bytes(), false).contains("error") {
            return text;
        }
    }
}
