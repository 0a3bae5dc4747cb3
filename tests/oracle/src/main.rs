//! The oracle as a program: see `HELP`.

mod compare;
mod record;
mod rows;

use oracle::numbers;
use oracle::{Answer, Oracle, utf8};
use std::fmt::Write as _;
use std::io::{self, Read, Write};
use std::process::ExitCode;

const HELP: &str = "\
oracle: what the Rust original says of texts, in the numbers of docs/RULES.md

  oracle tokens [--allow-confusing]
      prints the tokens of standard input as the program wat-tokens does

  oracle compare-tokens [--texts N] [--seed S] PROGRAM
      runs PROGRAM, which is wat-tokens, on N random texts (default 1000, seed 1) and on telling ones, and compares what it
      prints with what 'oracle tokens' prints, byte for byte; names the first text that differs

  oracle record [--rows N] [--seed S]
      writes N rows of answers (default 7000, seed 1) for the program of crates/replay

  oracle rows WHAT [--rows N] [--seed S]
      prints N different questions with their answers (default 1000, seed 1), one to a line. Bytes are in hexadecimal,
      - if there are none; texts have at most 40 bytes. WHAT is one of
      lex: what lexing says of what is left of a text from a position on; places are counted from there
          SETTINGS TEXT end
          SETTINGS TEXT token KIND LENGTH
          SETTINGS TEXT fault NUMBER DATA DATA PLACE AFTER
          SETTINGS are plain, lenient (confusing characters are allowed), strict (digits) or both
      utf8: what std::str::from_utf8 says
          BYTES ok
          BYTES bad VALID-UP-TO ERROR-LENGTH
      kinds: the number of every kind, which the original shows as KIND; however large N is
          KIND is NUMBER
      errors: the number of an error, which has this NAME in the original; and of DoubleUnderscore
          NAME DATA DATA is NUMBER
      messages: the message of the error with that number and data, in a buffer of so many bytes (or 34, or 32)
          NUMBER DATA DATA ROOM none
          NUMBER DATA DATA ROOM too-short
          NUMBER DATA DATA ROOM told MESSAGE
      places: the place after some bytes (or 35)
          LINE COLUMN LAST BYTES moved LINE COLUMN LAST
          LINE COLUMN LAST BYTES full
          LAST is cr or other: whether the last byte passed is a CR
      records: the records of a text's tokens up to the first error; or, with no text, of one token of any length
          TEXT KIND LENGTH KIND LENGTH .. has BYTES
      readers: what a reader leaves of a token, which stands at an offset and has these bytes
          READER KIND OFFSET BYTES absent
          READER KIND OFFSET BYTES part START BYTES
          READER KIND OFFSET BYTES copy BYTES
          READER KIND OFFSET BYTES refused NUMBER DATA DATA PLACE COPIED
          READER KIND OFFSET BYTES other-kind
          READER is its number, or name
";

/// The longest input that `wat-tokens` takes.
const MOST: usize = 32_768;

fn main() -> io::Result<ExitCode> {
    let words: Vec<String> = std::env::args().skip(1).collect();
    let words: Vec<&str> = words.iter().map(String::as_str).collect();
    if let ["record", options @ ..] = &words[..]
        && let Some((rows, seed)) = rows_and_seed("--rows", 7_000, options)
    {
        io::stdout().write_all(&record::rows(rows, seed))?;
        return Ok(ExitCode::SUCCESS);
    }
    let out = match words[..] {
        ["--help" | "-h"] => Some(HELP.to_string()),
        ["tokens"] => Some(tokens(&input()?, false)),
        ["tokens", "--allow-confusing"] => Some(tokens(&input()?, true)),
        ["compare-tokens", ref options @ .., program] => match rows_and_seed("--texts", 1_000, options) {
            Some((texts, seed)) => Some(compare::tokens(program, texts, seed)?),
            None => None,
        },
        ["rows", what, ref options @ ..] => match (rows::maker(what), rows_and_seed("--rows", 1_000, options)) {
            (Some(make), Some((rows, seed))) => Some(make(rows, seed)),
            _ => None,
        },
        _ => None,
    };
    match out {
        Some(out) => {
            io::stdout().write_all(out.as_bytes())?;
            Ok(ExitCode::SUCCESS)
        }
        None => {
            eprint!("{HELP}");
            Ok(ExitCode::from(2))
        }
    }
}

fn input() -> io::Result<Vec<u8>> {
    let mut bytes = Vec::new();
    io::stdin().read_to_end(&mut bytes)?;
    Ok(bytes)
}

fn rows_and_seed(name: &str, default: usize, options: &[&str]) -> Option<(usize, u64)> {
    let (mut rows, mut seed) = (default, 1);
    for option in options.chunks(2) {
        match *option {
            [word, n] if word == name => rows = n.parse().ok()?,
            ["--seed", n] => seed = n.parse().ok()?,
            _ => return None,
        }
    }
    Some((rows, seed))
}

/// The output of `wat-tokens`.
fn tokens(bytes: &[u8], allow_confusing: bool) -> String {
    let mut out = "kind offset length detail\n".to_string();
    let last = if bytes.len() > MOST {
        "too-long".to_string()
    } else {
        match utf8(bytes) {
            Ok(text) => token_lines(&Oracle::new(text, allow_confusing), &mut out),
            Err([valid, _]) => format!("error 2 {valid}"),
        }
    };
    out + &last + "\n"
}

/// Writes a line for each token, and gives the last line.
fn token_lines(oracle: &Oracle, out: &mut String) -> String {
    let (mut position, mut count) = (0, 0);
    loop {
        let (answer, after) = oracle.parse(position);
        match answer {
            Answer::End => return format!("end {position} {count}"),
            Answer::Fault(fault) => return format!("error {} {}", fault.number, fault.place),
            Answer::Token(token) => {
                let kind = token.kind();
                let (name, details) = (numbers::name(kind), numbers::details(kind));
                writeln!(out, "{name} {position} {} {details}", token.len()).expect("a string takes it");
                position = after;
                count += 1;
            }
        }
    }
}
