//! What the Rust original says of a text, in the numbers of docs/RULES.md.
//!
//! [`lexer`], [`parser`] and [`token`] are those of docs/src/src, unchanged; [`Error`] and [`annotation`] stand in for the
//! rest of their crate. [`Oracle`] asks the lexer for one token, an annotation or a listing, for the end of a form, and for
//! what its readers make of a token; [`integers`] asks the parser for an integer's value. [`strict`] adds the setting that
//! the original does not have.
//!
//! A position must stand between two characters of the text, or at its end: elsewhere the original panics, where
//! rule 1 refuses by 3 and 4.

#[rustfmt::skip]
#[allow(clippy::all)]
#[path = "../../../docs/src/src/lexer.rs"]
pub mod lexer;
#[rustfmt::skip]
#[allow(clippy::all, unexpected_cfgs)]
#[path = "../../../docs/src/src/parser.rs"]
pub mod parser;
#[rustfmt::skip]
#[allow(clippy::all, unexpected_cfgs)]
#[path = "../../../docs/src/src/token.rs"]
pub mod token;

pub mod forms;
pub mod integers;
pub mod listing;
pub mod literals;
pub mod names;
pub mod nests;
pub mod numbers;
pub mod places;
pub mod readers;
pub mod strict;
pub mod texts;
pub mod values;

use lexer::{LexError, Lexer};
use readers::Token;

/// What the original's `token` module names of its `annotation` module. No test asks for it.
pub mod annotation {
    use crate::parser::{Cursor, Parse, Parser, Peek, Result};

    #[expect(non_camel_case_types)]
    pub struct name;

    impl Parse<'_> for name {
        fn parse(parser: Parser<'_>) -> Result<name> {
            Err(parser.error("no annotation is read here"))
        }
    }

    impl Peek for name {
        fn peek(_: Cursor<'_>) -> Result<bool> {
            Ok(false)
        }

        fn display() -> &'static str {
            "@name"
        }
    }
}

/// The original's error, as far as lexer and parser make one.
#[derive(Debug)]
pub struct Error {
    place: usize,
    kind: ErrorKind,
}

#[derive(Debug)]
enum ErrorKind {
    Lex(LexError),
    Parse(String),
}

impl Error {
    fn lex(span: token::Span, _content: &str, kind: LexError) -> Error {
        Error { place: span.offset, kind: ErrorKind::Lex(kind) }
    }

    fn parse(span: token::Span, _content: &str, message: String) -> Error {
        Error::new(span, message)
    }

    fn new(span: token::Span, message: String) -> Error {
        Error { place: span.offset, kind: ErrorKind::Parse(message) }
    }

    /// Where it stands, in bytes.
    pub fn place(&self) -> usize {
        self.place
    }
}

impl std::fmt::Display for Error {
    fn fmt(&self, f: &mut std::fmt::Formatter<'_>) -> std::fmt::Result {
        match &self.kind {
            ErrorKind::Lex(kind) => kind.fmt(f),
            ErrorKind::Parse(message) => f.write_str(message),
        }
    }
}

/// An error of 10 to 25: its number, its data (0 where there is none) and its place.
#[derive(Clone, Copy, Debug, PartialEq, Eq)]
pub struct Fault {
    pub number: u8,
    pub data: [u32; 2],
    pub place: usize,
}

impl From<Error> for Fault {
    fn from(error: Error) -> Fault {
        let ErrorKind::Lex(kind) = &error.kind else { panic!("no error of the lexer: {error}") };
        let (number, data) = numbers::of_error(kind);
        Fault { number, data, place: error.place }
    }
}

impl Fault {
    /// The message of an error, and the error by its numbers.
    pub fn from_error(error: Error) -> (String, Fault) {
        (error.to_string(), Fault::from(error))
    }
}

/// What lexing at a position answers.
#[derive(Clone, Copy, Debug, PartialEq)]
pub enum Answer {
    End,
    Token(Token),
    Fault(Fault),
}

/// The settings of lexing. The original has the first alone.
#[derive(Clone, Copy, Debug, Default, PartialEq, Eq)]
pub struct Settings {
    pub allow_confusing: bool,
    pub strict_digits: bool,
}

impl Settings {
    /// All there are, in the order of their words.
    pub const ALL: [Settings; 4] = [Settings::of(0), Settings::of(1), Settings::of(2), Settings::of(3)];

    /// By the bits of a word (include/thallusweb.h).
    pub const fn of(word: u8) -> Settings {
        Settings { allow_confusing: word & 1 != 0, strict_digits: word & 2 != 0 }
    }

    pub fn word(self) -> u8 {
        u8::from(self.allow_confusing) | u8::from(self.strict_digits) << 1
    }
}

/// A text with the settings by which it is lexed.
pub struct Oracle<'a> {
    lexer: Lexer<'a>,
    strict_digits: bool,
}

impl<'a> Oracle<'a> {
    /// With the original's flag, and without strict digits, as readers lex too.
    pub fn new(text: &'a str, allow_confusing: bool) -> Oracle<'a> {
        Oracle::with_settings(text, Settings { allow_confusing, strict_digits: false })
    }

    pub fn with_settings(text: &'a str, settings: Settings) -> Oracle<'a> {
        let mut lexer = Lexer::new(text);
        lexer.allow_confusing_unicode(settings.allow_confusing);
        Oracle { lexer, strict_digits: settings.strict_digits }
    }

    /// The text.
    pub fn text(&self) -> &'a str {
        self.lexer.input()
    }

    /// One token at a position, and the position afterwards.
    pub fn parse(&self, position: usize) -> (Answer, usize) {
        let mut after = position;
        let answer = match self.lexer.parse(&mut after) {
            Ok(None) => Answer::End,
            Ok(Some(token)) => Answer::Token(Token(token)),
            Err(error) => Answer::Fault(error.into()),
        };
        if self.strict_digits
            && let Some(fault) = strict::refused(self.text(), position, after)
        {
            // the underscore is a byte
            return (Answer::Fault(fault), fault.place + 1);
        }
        (answer, after)
    }

    /// The annotation at a position, which may be any.
    pub fn annotation(&self, position: usize) -> Result<Option<Token>, Fault> {
        // the original lexes where an `@` stands, and passes the error on
        if self.strict_digits
            && self.text().as_bytes().get(position) == Some(&b'@')
            && let (Answer::Fault(fault), _) = self.parse(position)
        {
            return Err(fault);
        }
        match self.lexer.annotation(position) {
            Ok(token) => Ok(token.map(Token)),
            Err(error) => Err(error.into()),
        }
    }
}

/// Whether bytes are UTF-8: the text, or the two numbers of refusal 2 (0 for a text that ends inside a character).
pub fn utf8(bytes: &[u8]) -> Result<&str, [u32; 2]> {
    std::str::from_utf8(bytes).map_err(|error| numbers::of_utf8_error(&error))
}
