//! Times loops over single calls, on texts of 1 and 4 MiB: `cargo run --release --example loops`. Prints the best of some runs, and the
//! ratio of 4 MiB to 1 MiB, which is some 4 where time grows in line with the text (up to 8 where the smaller text fits a cache), and 16
//! where it grows with the square.

use std::hint::black_box;
use std::time::{Duration, Instant};
use thallusweb::lexer::{Lexer, TokenKind};

const MIB: usize = 1 << 20;
const RUNS: usize = 5;

/// Goes over a whole text, and answers how many calls that took.
type Loop = fn(&Lexer) -> usize;

/// The tokens and errors one by one, up to the end, or an error that stays where it is.
fn parse(lexer: &Lexer) -> usize {
    let (mut position, mut calls) = (0, 0);
    loop {
        let start = position;
        calls += 1;
        match lexer.parse(&mut position) {
            Ok(None) => return calls,
            Err(_) if position == start => return calls,
            found => drop(black_box(found)),
        }
    }
}

/// As wast's parser goes: the tokens one by one, and behind each `(` whether an annotation begins there.
fn annotation(lexer: &Lexer) -> usize {
    let (mut position, mut calls) = (0, 0);
    while let Ok(Some(token)) = lexer.parse(&mut position) {
        if token.kind == TokenKind::LParen {
            calls += usize::from(black_box(lexer.annotation(position)).is_ok());
        }
    }
    calls
}

fn iter(lexer: &Lexer) -> usize {
    lexer.iter(0).map(|item| drop(black_box(item))).count()
}

/// The forms one by one, over what stands between them.
fn fold(lexer: &Lexer) -> usize {
    let (mut position, mut calls) = (0, 0);
    while position < lexer.input().len() {
        position = black_box(lexer.fold(position)).unwrap_or(position + 1);
        calls += 1;
    }
    calls
}

fn best(text: &str, each: Loop) -> (Duration, usize) {
    let lexer = Lexer::new(text);
    let runs = (0..RUNS).map(|_| {
        let began = Instant::now();
        let calls = each(&lexer);
        (began.elapsed(), calls)
    });
    runs.min().unwrap_or_default()
}

fn main() {
    const WAT: &str =
        "(func $merge (param $upper i32) (result i32) (; over ;) local.get $upper i32.const 0x1_0) ;; one\n";
    let long = format!("(; {} ;)\n", "é ".repeat(10_000));
    let loops: [(&str, Loop, &str); 9] = [
        ("parse, ordinary WAT", parse, WAT),
        ("parse, (", parse, "("),
        ("parse, comments of 30 kB", parse, &long),
        ("parse, \"\\q", parse, "\"\\q"),
        ("annotation at each (", annotation, "(@a b) (c)\n"),
        ("iter, ordinary WAT", iter, WAT),
        ("iter, comments of 30 kB", iter, &long),
        ("iter, \"\\q", iter, "\"\\q"),
        ("fold, ordinary WAT", fold, WAT),
    ];
    for (name, each, piece) in loops {
        let [(one, _), (four, calls)] = [MIB, 4 * MIB].map(|size| best(&piece.repeat(size / piece.len()), each));
        let ratio = four.as_secs_f64() / one.as_secs_f64();
        let each = four.as_nanos() as f64 / calls as f64;
        println!("{name:<28}{one:>10.1?} {four:>10.1?}   ratio {ratio:4.1}   {calls:>8} calls, {each:.0} ns each");
    }
}
