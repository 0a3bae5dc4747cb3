//! Lists the tokens of a file, each with its line and column, and for a `(` that stands in no form where its form ends:
//! `cargo run --example list FILE`.

use std::io::{self, BufWriter, Write};
use std::path::PathBuf;
use std::process::ExitCode;
use thallusweb::lexer::{Lexer, TokenKind};
use thallusweb::{Error, Place};

fn list(bytes: &[u8], out: &mut impl Write) -> io::Result<Result<(), (Place, Error)>> {
    let mut place = Place::new();
    let lexer = match Lexer::from_bytes(bytes) {
        Ok(lexer) => lexer,
        Err(error) => return Ok(Err((place, error))),
    };
    let mut past = 0; // the last form that stands in no other
    // `iter` hands the library one window of the text after the other: all takes as long as the text is
    for token in lexer.iter(0) {
        match token {
            Ok(token) => {
                write!(out, "{}:{} {:?} {:?}", place.line(), place.column(), token.kind, token.src(lexer.input()))?;
                if token.kind == TokenKind::LParen && token.offset >= past {
                    past = form(&lexer, token.offset, place, out)?;
                }
                writeln!(out)?;
                if let Err(refusal) = place.move_over(token.src(lexer.input()).as_bytes()) {
                    return Err(io::Error::other(refusal));
                }
            }
            Err(error) => {
                let place = error.place().and_then(|at| lexer.place(at).ok()).unwrap_or(place);
                return Ok(Err((place, error)));
            }
        }
    }
    Ok(Ok(()))
}

/// Where the form ends whose `(` stands at a position and a place, or why it does not; gives the position past it, or the text's end.
fn form(lexer: &Lexer, position: usize, mut place: Place, out: &mut impl Write) -> io::Result<usize> {
    let text = lexer.input();
    match lexer.fold(position) {
        Ok(past) => {
            place.move_over(&text.as_bytes()[position..past]).map_err(io::Error::other)?;
            write!(out, " up to {}:{}", place.line(), place.column())?;
            Ok(past)
        }
        Err(error) => {
            write!(out, ": {error}")?;
            Ok(text.len())
        }
    }
}

fn main() -> ExitCode {
    let Some(file) = std::env::args_os().nth(1).map(PathBuf::from) else {
        eprintln!("usage: list FILE");
        return ExitCode::from(2);
    };
    let listed = std::fs::read(&file).and_then(|bytes| {
        let mut out = BufWriter::new(io::stdout().lock());
        let listed = list(&bytes, &mut out)?;
        out.flush()?;
        Ok(listed)
    });
    match listed {
        Ok(Ok(())) => ExitCode::SUCCESS,
        Ok(Err((place, error))) => {
            eprintln!("{}:{}:{}: {}", file.display(), place.line(), place.column(), error.message());
            ExitCode::FAILURE
        }
        Err(error) => {
            eprintln!("{}: {error}", file.display());
            ExitCode::FAILURE
        }
    }
}
