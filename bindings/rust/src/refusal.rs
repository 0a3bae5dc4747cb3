//! Why a call is refused.

use crate::lexer::{LexError, Utf8Error};
use crate::{Place, ffi};
use std::fmt;

/// Why a call is refused.
#[derive(Debug, Clone, PartialEq, Eq)]
#[non_exhaustive]
pub enum Refusal {
    /// The text is longer than 16,777,216 bytes.
    TooLong,
    /// The text is not UTF-8.
    NotUtf8(Utf8Error),
    /// The position is past the text's end.
    PastEnd,
    /// The position is inside a character.
    InsideCharacter,
    /// The text does not lex there, or a name is no name.
    Lex(LexError),
    /// Lexing at the token's offset gives another token, or none.
    NotThatToken,
    /// The call does not take tokens of that kind; for [`Lexer::fold`](crate::lexer::Lexer::fold), no `(` stands there.
    NotThatKind,
    /// A line or column does not fit the place counter.
    CounterFull,
    /// An integer's value does not fit so many bits.
    OutOfRange,
    /// Forms stand in each other deeper than 64 levels.
    TooDeep,
    /// The text ends, and a form is open.
    Unclosed,
}

impl Refusal {
    /// The number that the C calls give.
    #[must_use]
    pub fn number(&self) -> u64 {
        match self {
            Refusal::TooLong => 1,
            Refusal::NotUtf8(_) => 2,
            Refusal::PastEnd => 3,
            Refusal::InsideCharacter => 4,
            Refusal::Lex(error) => error.words().0,
            Refusal::NotThatToken => 30,
            Refusal::NotThatKind => 31,
            Refusal::CounterFull => 35,
            Refusal::OutOfRange => 40,
            Refusal::TooDeep => 41,
            Refusal::Unclosed => 42,
        }
    }

    /// The refusal with a number and its values. The library gives no other numbers.
    pub(crate) fn from_words(number: u64, values: [u64; 2]) -> Refusal {
        match number {
            1 => Refusal::TooLong,
            2 => Refusal::NotUtf8(Utf8Error::from_words(values)),
            3 => Refusal::PastEnd,
            4 => Refusal::InsideCharacter,
            31 => Refusal::NotThatKind,
            35 => Refusal::CounterFull,
            40 => Refusal::OutOfRange,
            41 => Refusal::TooDeep,
            42 => Refusal::Unclosed,
            _ => LexError::from_words(number, values).map_or(Refusal::NotThatToken, Refusal::Lex),
        }
    }
}

impl fmt::Display for Refusal {
    fn fmt(&self, f: &mut fmt::Formatter<'_>) -> fmt::Result {
        match self {
            Refusal::TooLong => f.write_str("text longer than 16777216 bytes"),
            Refusal::NotUtf8(error) => write!(f, "text is not UTF-8 from byte {} on", error.valid_up_to()),
            Refusal::PastEnd => f.write_str("position past the end of the text"),
            Refusal::InsideCharacter => f.write_str("position inside a character"),
            Refusal::Lex(error) => error.fmt(f),
            Refusal::NotThatToken => f.write_str("no such token there"),
            Refusal::NotThatKind => f.write_str("no token of a kind that the call takes"),
            Refusal::CounterFull => f.write_str("line or column too large"),
            Refusal::OutOfRange => f.write_str("integer out of range"),
            Refusal::TooDeep => f.write_str("forms nested deeper than 64 levels"),
            Refusal::Unclosed => f.write_str("unclosed form"),
        }
    }
}

impl std::error::Error for Refusal {}

impl From<LexError> for Refusal {
    fn from(error: LexError) -> Refusal {
        Refusal::Lex(error)
    }
}

/// A refusal, and where it stands in the text, if it stands anywhere.
///
/// The counterpart of `wast::Error`: [`message`](Error::message) and [`lex_error`](Error::lex_error) are wast's, [`place`](Error::place)
/// is its `span().offset()`, and [`linecol_in`](Error::linecol_in) its `span().linecol_in(text)`, with the line ends of [`Place`].
/// `Display` is the message and the place in bytes, in one line.
///
/// ```
/// use thallusweb::lexer::Lexer;
///
/// let text = "(module\n  \"\\q\")";
/// let error = Lexer::new(text).iter(0).find_map(Result::err).unwrap();
/// assert_eq!(error.message(), "invalid string escape 'q'");
/// assert_eq!(error.to_string(), "invalid string escape 'q' at byte 12");
/// assert_eq!(error.linecol_in(text), Some((1, 4)));
/// ```
#[derive(Debug, Clone, PartialEq, Eq)]
pub struct Error {
    refusal: Refusal,
    place: Option<usize>,
}

impl Error {
    pub(crate) fn new(refusal: Refusal, place: Option<usize>) -> Error {
        Error { refusal, place }
    }

    /// The same in a text that has so many bytes before.
    pub(crate) fn moved(self, before: usize) -> Error {
        Error { place: self.place.map(|place| before + place), ..self }
    }

    /// From the last four of five words.
    pub(crate) fn from_words([number, place, first, second]: [u64; 4]) -> Error {
        let refusal = Refusal::from_words(number, [first, second]);
        // what a call cannot do stands nowhere
        let place = if (30..=40).contains(&number) { None } else { Some(place as usize) };
        Error { refusal, place }
    }

    /// Why.
    #[must_use]
    pub fn refusal(&self) -> &Refusal {
        &self.refusal
    }

    /// The lexing error, if it is one: the counterpart of wast's `Error::lex_error`.
    #[must_use]
    pub fn lex_error(&self) -> Option<&LexError> {
        match &self.refusal {
            Refusal::Lex(error) => Some(error),
            _ => None,
        }
    }

    /// Where, in bytes from the text's start.
    #[must_use]
    pub fn place(&self) -> Option<usize> {
        self.place
    }

    /// The line and the column of the place in the text, each from 0, columns in bytes, as wast's `Span::linecol_in` has them, but that a
    /// line ends as in [`Place`], where wast's ends at LF alone. Add 1 to each to show them. Nothing where the error stands nowhere, or
    /// past the text's end.
    #[must_use]
    pub fn linecol_in(&self, text: &str) -> Option<(usize, usize)> {
        let mut place = Place::new();
        place.move_over(text.as_bytes().get(..self.place?)?).ok()?;
        Some((place.line() as usize - 1, place.column() as usize - 1))
    }

    /// The message alone, as wast's `Error::message` has it.
    #[must_use]
    pub fn message(&self) -> String {
        self.refusal.to_string()
    }
}

impl fmt::Display for Error {
    fn fmt(&self, f: &mut fmt::Formatter<'_>) -> fmt::Result {
        match self.place {
            Some(place) => write!(f, "{} at byte {place}", self.refusal),
            None => self.refusal.fmt(f),
        }
    }
}

impl std::error::Error for Error {}

/// With no place, so that `?` passes on what [`Place::move_over`] refuses.
impl From<Refusal> for Error {
    fn from(refusal: Refusal) -> Error {
        Error { refusal, place: None }
    }
}

impl fmt::Display for LexError {
    fn fmt(&self, f: &mut fmt::Formatter<'_>) -> fmt::Result {
        // the library has wast's messages alone, and refuses 25 by 34
        if *self == LexError::DoubleUnderscore {
            return f.write_str("two underscores in a row in a numeric literal");
        }
        let (number, values) = self.words();
        let mut buffer = [0; ffi::MESSAGE];
        let [told, len, ..] = ffi::message(number, values, &mut buffer);
        match buffer.get(..len as usize).map(std::str::from_utf8) {
            Some(Ok(message)) if told == 1 => f.write_str(message),
            // a character that only looks confusing to whoever built the error
            _ => write!(f, "{self:?}"),
        }
    }
}

impl std::error::Error for LexError {}
