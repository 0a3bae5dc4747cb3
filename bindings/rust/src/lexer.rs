//! Lexer and tokens, under the names of `wast::lexer`.

pub use crate::iter::Iter;
use crate::refusal::{Error, Refusal};
use crate::window::{self, is_decided, is_form_decided, refused, window};
use crate::{Place, Settings, ffi};
use std::borrow::Cow;
use std::fmt;

/// A text to lex.
#[derive(Clone, Copy, Debug)]
pub struct Lexer<'a> {
    input: &'a str,
    settings: Settings,
}

/// A single token of a text.
#[derive(Clone, Copy, Debug, PartialEq)]
pub struct Token {
    /// What the token is.
    pub kind: TokenKind,
    /// Where it begins, in bytes from the text's start.
    pub offset: usize,
    /// Its length in bytes.
    pub len: u32,
}

/// What a token is. Comments and whitespace are tokens too.
#[derive(Clone, Copy, Debug, PartialEq)]
pub enum TokenKind {
    /// `;;` and what follows up to the line's end.
    LineComment,
    /// `(;` to `;)`, nested.
    BlockComment,
    /// Spaces, tabs and line ends.
    Whitespace,
    /// `(`
    LParen,
    /// `)`
    RParen,
    /// `"` to `"`.
    String,
    /// `$` and a name.
    Id,
    /// What begins with a small letter.
    Keyword,
    /// `@` and a name.
    Annotation,
    /// A run that is nothing else.
    Reserved,
    /// A whole number; [`Token::integer`] takes what it carries, and [`Token::u32`] gives its value.
    Integer(IntegerKind),
    /// Any other number; [`Token::float`] takes what it carries.
    Float(FloatKind),
}

/// How an integer is written.
#[derive(Clone, Copy, Debug, PartialEq)]
pub struct IntegerKind {
    sign: Option<SignToken>,
    has_underscores: bool,
    hex: bool,
}

/// How a float is written. A `Normal` has its sign in its digits.
#[allow(missing_docs)]
#[derive(Clone, Copy, Debug, PartialEq)]
pub enum FloatKind {
    Inf { negative: bool },
    Nan { negative: bool },
    NanVal { negative: bool, has_underscores: bool },
    Normal { has_underscores: bool, hex: bool },
}

/// The sign of an integer.
#[derive(Clone, Copy, Debug, PartialEq, Eq)]
pub enum SignToken {
    /// `+`
    Plus,
    /// `-`
    Minus,
}

/// Errors of lexing, and of names. `Display` is wast's message, but of [`DoubleUnderscore`](LexError::DoubleUnderscore), which wast does
/// not have.
#[derive(Debug, Clone, PartialEq, Eq)]
#[non_exhaustive]
pub enum LexError {
    /// A block comment is never closed.
    DanglingBlockComment,
    /// No token begins with the character.
    Unexpected(char),
    /// A control character stands raw in a string.
    InvalidStringElement(char),
    /// No escape has the character behind its `\`.
    InvalidStringEscape(char),
    /// An escape wants a hexadecimal digit.
    InvalidHexDigit(char),
    /// An escape `\u{..}` wants a brace.
    #[allow(missing_docs)]
    Expected { wanted: char, found: char },
    /// The text ends inside a string.
    UnexpectedEof,
    /// The number of a `\u{..}` does not fit 32 bits.
    NumberTooBig,
    /// The number of a `\u{..}` is no Unicode scalar value.
    InvalidUnicodeValue(u32),
    /// No digit follows an underscore.
    LoneUnderscore,
    /// A character that turns the direction of text stands raw in a string or comment, and is not allowed.
    ConfusingUnicode(char),
    /// A name is not UTF-8; the numbers are those of the decoded name.
    InvalidUtf8Id(Utf8Error),
    /// The name of an Id is empty.
    EmptyId,
    /// The name of an Annotation is empty.
    EmptyAnnotation,
    /// An underscore follows another between the digits of a `\u{..}`, and digits are strict ([`Lexer::strict_digits`]).
    DoubleUnderscore,
}

/// Where bytes stop being UTF-8: the counterpart of `std::str::Utf8Error`.
#[derive(Debug, Clone, Copy, PartialEq, Eq)]
pub struct Utf8Error {
    valid_up_to: usize,
    error_len: Option<u8>,
}

impl Utf8Error {
    pub(crate) fn from_words([valid_up_to, error_len]: [u64; 2]) -> Utf8Error {
        let error_len = if error_len == 0 { None } else { Some(error_len as u8) };
        Utf8Error { valid_up_to: valid_up_to as usize, error_len }
    }

    /// How many bytes are UTF-8.
    #[must_use]
    pub fn valid_up_to(&self) -> usize {
        self.valid_up_to
    }

    /// How many bytes after these are wrong; nothing where the bytes end inside a character.
    #[must_use]
    pub fn error_len(&self) -> Option<usize> {
        self.error_len.map(usize::from)
    }
}

impl From<std::str::Utf8Error> for Utf8Error {
    fn from(error: std::str::Utf8Error) -> Utf8Error {
        Utf8Error { valid_up_to: error.valid_up_to(), error_len: error.error_len().map(|len| len as u8) }
    }
}

impl fmt::Display for Utf8Error {
    fn fmt(&self, f: &mut fmt::Formatter<'_>) -> fmt::Result {
        match self.error_len {
            None => write!(f, "incomplete utf-8 byte sequence from index {}", self.valid_up_to),
            Some(n) => write!(f, "invalid utf-8 sequence of {n} bytes from index {}", self.valid_up_to),
        }
    }
}

impl std::error::Error for Utf8Error {}

impl LexError {
    /// The number, and the values that it carries.
    pub(crate) fn words(&self) -> (u64, [u64; 2]) {
        let char = |c: char| [u64::from(u32::from(c)), 0];
        match *self {
            LexError::DanglingBlockComment => (10, [0, 0]),
            LexError::Unexpected(c) => (11, char(c)),
            LexError::InvalidStringElement(c) => (12, char(c)),
            LexError::InvalidStringEscape(c) => (13, char(c)),
            LexError::InvalidHexDigit(c) => (14, char(c)),
            LexError::Expected { wanted, found } => (16, [char(wanted)[0], char(found)[0]]),
            LexError::UnexpectedEof => (17, [0, 0]),
            LexError::NumberTooBig => (18, [0, 0]),
            LexError::InvalidUnicodeValue(n) => (19, [n.into(), 0]),
            LexError::LoneUnderscore => (20, [0, 0]),
            LexError::ConfusingUnicode(c) => (21, char(c)),
            LexError::InvalidUtf8Id(error) => (22, [error.valid_up_to as u64, error.error_len.unwrap_or(0).into()]),
            LexError::EmptyId => (23, [0, 0]),
            LexError::EmptyAnnotation => (24, [0, 0]),
            LexError::DoubleUnderscore => (25, [0, 0]),
        }
    }

    pub(crate) fn from_words(number: u64, values: [u64; 2]) -> Option<LexError> {
        let char = |i: usize| u32::try_from(values[i]).ok().and_then(char::from_u32);
        Some(match number {
            10 => LexError::DanglingBlockComment,
            11 => LexError::Unexpected(char(0)?),
            12 => LexError::InvalidStringElement(char(0)?),
            13 => LexError::InvalidStringEscape(char(0)?),
            14 => LexError::InvalidHexDigit(char(0)?),
            16 => LexError::Expected { wanted: char(0)?, found: char(1)? },
            17 => LexError::UnexpectedEof,
            18 => LexError::NumberTooBig,
            19 => LexError::InvalidUnicodeValue(u32::try_from(values[0]).ok()?),
            20 => LexError::LoneUnderscore,
            21 => LexError::ConfusingUnicode(char(0)?),
            22 => LexError::InvalidUtf8Id(Utf8Error::from_words(values)),
            23 => LexError::EmptyId,
            24 => LexError::EmptyAnnotation,
            25 => LexError::DoubleUnderscore,
            _ => return None,
        })
    }
}

const PLUS: u64 = 256;
const MINUS: u64 = 512;
const UNDERSCORES: u64 = 1024;
const HEX: u64 = 2048;

impl TokenKind {
    /// The number that the C calls and token records have for a kind.
    #[must_use]
    pub fn number(self) -> u64 {
        let flag = |is: bool, n: u64| if is { n } else { 0 };
        match self {
            TokenKind::LineComment => 1,
            TokenKind::BlockComment => 2,
            TokenKind::Whitespace => 3,
            TokenKind::LParen => 4,
            TokenKind::RParen => 5,
            TokenKind::String => 6,
            TokenKind::Id => 7,
            TokenKind::Keyword => 8,
            TokenKind::Annotation => 9,
            TokenKind::Reserved => 10,
            TokenKind::Integer(IntegerKind { sign, has_underscores, hex }) => {
                let sign = match sign {
                    None => 0,
                    Some(SignToken::Plus) => PLUS,
                    Some(SignToken::Minus) => MINUS,
                };
                11 + sign + flag(has_underscores, UNDERSCORES) + flag(hex, HEX)
            }
            TokenKind::Float(FloatKind::Inf { negative }) => 12 + flag(negative, MINUS),
            TokenKind::Float(FloatKind::Nan { negative }) => 13 + flag(negative, MINUS),
            TokenKind::Float(FloatKind::NanVal { negative, has_underscores }) => {
                14 + flag(negative, MINUS) + flag(has_underscores, UNDERSCORES)
            }
            TokenKind::Float(FloatKind::Normal { has_underscores, hex }) => {
                15 + flag(has_underscores, UNDERSCORES) + flag(hex, HEX)
            }
        }
    }

    /// The kind that has a number; nothing where none has it.
    ///
    /// ```
    /// use thallusweb::lexer::TokenKind;
    ///
    /// assert_eq!(TokenKind::from_number(4), Some(TokenKind::LParen));
    /// assert_eq!(TokenKind::from_number(4 + 2048), None); // no hexadecimal parenthesis
    /// ```
    #[must_use]
    pub fn from_number(number: u64) -> Option<TokenKind> {
        Some(match number {
            1 => TokenKind::LineComment,
            2 => TokenKind::BlockComment,
            3 => TokenKind::Whitespace,
            4 => TokenKind::LParen,
            5 => TokenKind::RParen,
            6 => TokenKind::String,
            7 => TokenKind::Id,
            8 => TokenKind::Keyword,
            9 => TokenKind::Annotation,
            10 => TokenKind::Reserved,
            _ => return TokenKind::number_from(number),
        })
    }

    /// The same for a kind that carries how a number is written.
    fn number_from(number: u64) -> Option<TokenKind> {
        let [plus, negative, has_underscores, hex] = [PLUS, MINUS, UNDERSCORES, HEX].map(|flag| number & flag != 0);
        let kind = match number % 256 {
            11 => {
                let sign = match (plus, negative) {
                    (true, _) => Some(SignToken::Plus),
                    (_, true) => Some(SignToken::Minus),
                    _ => None,
                };
                TokenKind::Integer(IntegerKind { sign, has_underscores, hex })
            }
            12 => TokenKind::Float(FloatKind::Inf { negative }),
            13 => TokenKind::Float(FloatKind::Nan { negative }),
            14 => TokenKind::Float(FloatKind::NanVal { negative, has_underscores }),
            15 => TokenKind::Float(FloatKind::Normal { has_underscores, hex }),
            _ => return None,
        };
        // bits that the kind does not have are no part of its own number
        (kind.number() == number).then_some(kind)
    }

    /// The kind with a number that the library gave, which is one that a kind has.
    pub(crate) fn given(number: u64) -> TokenKind {
        TokenKind::from_number(number).unwrap_or(TokenKind::Reserved)
    }
}

/// Whether bytes, however many, are UTF-8, by the proved check: the counterpart of `std::str::from_utf8`.
///
/// # Errors
///
/// Where they are not, from which byte on.
pub fn check_utf8(bytes: &[u8]) -> Result<(), Utf8Error> {
    match ffi::utf8_check(bytes) {
        [0, ..] => Ok(()),
        [_, valid_up_to, error_len] => Err(Utf8Error::from_words([valid_up_to, error_len])),
    }
}

/// What a call for one token answers.
pub(crate) fn found([what, number, place, first, second]: [u64; 5]) -> Result<Option<Token>, Error> {
    match what {
        0 => Ok(None),
        1 => Ok(Some(Token { kind: TokenKind::given(number), offset: place as usize, len: first as u32 })),
        _ => Err(Error::from_words([number, place, first, second])),
    }
}

/// What the call for a form's end answers.
pub(crate) fn folded([what, number, place, first, second]: [u64; 5]) -> Result<usize, Error> {
    match what {
        1 => Ok(number as usize),
        _ => Err(Error::from_words([number, place, first, second])),
    }
}

impl<'a> Lexer<'a> {
    /// The longest text that is lexed, in bytes.
    pub const MAX_TEXT: usize = 16_777_216;

    /// The bytes of a token's record in a list.
    pub const RECORD: usize = 6;

    /// How deep forms may stand in each other, the outer one being level 1.
    pub const LEVELS: usize = 64;

    /// A lexer of a text, which refuses confusing characters and whose digits are not strict.
    #[must_use]
    pub fn new(input: &str) -> Lexer<'_> {
        Lexer::with_settings(input, Settings::new())
    }

    /// A lexer of a text, with settings that [`Settings::new`] and its methods build.
    #[must_use]
    pub fn with_settings(input: &str, settings: Settings) -> Lexer<'_> {
        Lexer { input, settings }
    }

    /// A lexer of bytes, with the settings of [`Lexer::new`].
    ///
    /// # Errors
    ///
    /// [`Refusal::TooLong`] where they are more than [`Lexer::MAX_TEXT`], and [`Refusal::NotUtf8`].
    pub fn from_bytes(bytes: &[u8]) -> Result<Lexer<'_>, Error> {
        if bytes.len() > Self::MAX_TEXT {
            return Err(Error::new(Refusal::TooLong, Some(0)));
        }
        let refused = |error: Utf8Error| Error::new(Refusal::NotUtf8(error), Some(error.valid_up_to));
        check_utf8(bytes).map_err(refused)?;
        // the two checks agree; if they did not, the bytes would be refused
        std::str::from_utf8(bytes).map(Lexer::new).map_err(|error| refused(Utf8Error::from(error)))
    }

    /// The text.
    #[must_use]
    pub fn input(&self) -> &'a str {
        self.input
    }

    /// The settings.
    #[must_use]
    pub fn settings(&self) -> Settings {
        self.settings
    }

    /// Whether the nine characters that turn the direction of text may stand raw in strings and comments.
    pub fn allow_confusing_unicode(&mut self, allow: bool) -> &mut Self {
        self.settings = self.settings.allow_confusing_unicode(allow);
        self
    }

    /// Whether only a single underscore may stand between two digits of a `\u{..}`, as the WebAssembly standard has it; else any number may,
    /// as in wast. See [`Settings::strict_digits`].
    pub fn strict_digits(&mut self, strict: bool) -> &mut Self {
        self.settings = self.settings.strict_digits(strict);
        self
    }

    /// The token at a position, which is then moved past it; nothing at the end of the text. After an error the position is where
    /// wast leaves it. Takes the time of the token and not of the text.
    ///
    /// ```
    /// use thallusweb::lexer::{Lexer, TokenKind};
    ///
    /// let mut position = 0;
    /// let token = Lexer::new("(func)").parse(&mut position)?.unwrap();
    /// assert_eq!((token.kind, position), (TokenKind::LParen, 1));
    /// # Ok::<(), thallusweb::Error>(())
    /// ```
    ///
    /// # Errors
    ///
    /// [`Refusal::Lex`] where the text does not lex there, with the position where lexing may go on; after an open comment and an
    /// unexpected character that is the position given, and so it is for a text over [`Lexer::MAX_TEXT`], a position past the end and one
    /// inside a character: the same call is refused again.
    pub fn parse(&self, position: &mut usize) -> Result<Option<Token>, Error> {
        self.parse_by(position, window::FIRST)
    }

    /// By windows that begin with a size.
    pub(crate) fn parse_by(&self, position: &mut usize, mut size: usize) -> Result<Option<Token>, Error> {
        let start = *position;
        if let Some(error) = refused(self.input, start) {
            return Err(error);
        }
        loop {
            let window = window(self.input, start, size);
            let [a, b, c, d, e, after] = ffi::parse(window.as_bytes(), self.settings.word(), 0);
            let found = found([a, b, c, d, e]);
            let after = after as usize;
            if start + window.len() == self.input.len() || is_decided(found.as_ref().err(), after, window) {
                *position = start + after;
                return match found {
                    Ok(token) => Ok(token.map(|token| Token { offset: start + token.offset, ..token })),
                    Err(error) => Err(error.moved(start)),
                };
            }
            size *= 2;
        }
    }

    /// The tokens from a position on. An error is an item, and the tokens behind it follow, as in wast, which also means that the first
    /// item after an open comment or an unexpected character is the same error again. A text over [`Lexer::MAX_TEXT`] and a position past
    /// the end or inside a character are such an error too.
    pub fn iter(&self, position: usize) -> Iter<'a> {
        Iter::new(*self, position)
    }

    /// The tokens from a start on, at most `budget` of them, as records of six bytes in a lent list ([`Lexer::RECORD`]): the length in
    /// four and the kind's number in two, the least byte first. Bytes past the records stay. The text is checked once.
    ///
    /// ```
    /// use thallusweb::lexer::{Lexer, Stop};
    ///
    /// let mut list = [0; 2 * Lexer::RECORD];
    /// let listed = Lexer::new("(a)").list(0, usize::MAX, &mut list);
    /// assert_eq!((listed.stop, listed.count, listed.position), (Stop::Full, 2, 2));
    /// assert_eq!(list, [1, 0, 0, 0, 4, 0, 1, 0, 0, 0, 8, 0]);
    /// ```
    pub fn list(&self, start: usize, budget: usize, list: &mut [u8]) -> Listed {
        let [why, number, place, first, second, count, position] =
            ffi::list(self.input.as_bytes(), self.settings.word(), start, budget, list);
        let stop = match why {
            0 => Stop::End,
            1 => Stop::Budget,
            2 => Stop::Error(Error::from_words([number, place, first, second])),
            _ => Stop::Full,
        };
        Listed { stop, count: count as usize, position: position as usize }
    }

    /// The annotation at a position, if an `@` stands there and begins one; nothing elsewhere, past the end too. Takes the time of the
    /// token and not of the text.
    ///
    /// # Errors
    ///
    /// Where an `@` stands and [`Lexer::parse`] is refused, and for a text over [`Lexer::MAX_TEXT`].
    pub fn annotation(&self, position: usize) -> Result<Option<Token>, Error> {
        self.annotation_by(position, window::FIRST)
    }

    /// By windows that begin with a size. Follows `Annotates` of crates/wat/specs/Calls.antt.
    pub(crate) fn annotation_by(&self, mut position: usize, size: usize) -> Result<Option<Token>, Error> {
        if self.input.len() > Self::MAX_TEXT {
            return Err(Error::new(Refusal::TooLong, Some(position)));
        }
        if self.input.as_bytes().get(position) != Some(&b'@') {
            return Ok(None);
        }
        let token = self.parse_by(&mut position, size)?;
        Ok(token.filter(|token| token.kind == TokenKind::Annotation))
    }

    /// The position past the form whose `(` stands at a position: past the `)` that belongs to it, over comments, strings, other tokens
    /// and inner forms, down to [`Lexer::LEVELS`]. Takes the time of the form and not of the text; where it is refused, that of the text
    /// at most.
    ///
    /// ```
    /// use thallusweb::Refusal;
    /// use thallusweb::lexer::Lexer;
    ///
    /// let text = "(a (; ) ;) (b \")\")) (c";
    /// let lexer = Lexer::new(text);
    /// assert_eq!(lexer.fold(0), Ok(19));
    /// assert_eq!(&text[11..lexer.fold(11)?], "(b \")\")");
    /// assert_eq!(lexer.fold(3).unwrap_err().refusal(), &Refusal::NotThatKind);
    /// let error = lexer.fold(20).unwrap_err();
    /// assert_eq!((error.refusal(), error.place()), (&Refusal::Unclosed, Some(22)));
    /// # Ok::<(), thallusweb::Error>(())
    /// ```
    ///
    /// # Errors
    ///
    /// [`Refusal::NotThatKind`], with no place, where no [`TokenKind::LParen`] stands at the position, be it another token, an error or the
    /// end. Else what comes first behind the `(`, before its `)`: [`Refusal::Lex`] where the text does not lex, [`Refusal::TooDeep`] at a
    /// `(` that would be a level too many, [`Refusal::Unclosed`] at the end of the text. Before all these a text over
    /// [`Lexer::MAX_TEXT`], a position past the end and one inside a character are refused.
    pub fn fold(&self, position: usize) -> Result<usize, Error> {
        self.fold_by(position, window::FIRST)
    }

    /// By windows that begin with a size.
    pub(crate) fn fold_by(&self, position: usize, mut size: usize) -> Result<usize, Error> {
        if let Some(error) = refused(self.input, position) {
            return Err(error);
        }
        loop {
            let window = window(self.input, position, size);
            let folded = folded(ffi::fold(window.as_bytes(), self.settings.word(), 0));
            if position + window.len() == self.input.len() || is_form_decided(&folded, window) {
                return folded.map(|end| position + end).map_err(|error| error.moved(position));
            }
            // each window is lexed anew, and only checked behind the form: better a few that are large
            size *= 4;
        }
    }

    /// The place of a position in the text, which may be moved on from there: counts from the text's start, so that it is for error
    /// messages.
    ///
    /// # Errors
    ///
    /// [`Refusal::PastEnd`], and [`Refusal::CounterFull`] where line or column does not fit 32 bits.
    pub fn place(&self, position: usize) -> Result<Place, Error> {
        let Some(before) = self.input.as_bytes().get(..position) else {
            return Err(Error::new(Refusal::PastEnd, Some(position)));
        };
        let mut place = Place::new();
        place.move_over(before).map_err(|refusal| Error::new(refusal, None))?;
        Ok(place)
    }
}

/// Why a listing stopped.
#[derive(Clone, Debug, PartialEq, Eq)]
pub enum Stop {
    /// The text's end.
    End,
    /// As many tokens as were asked for.
    Budget,
    /// The text does not lex there, or text or start are refused.
    Error(Error),
    /// No room for the next token.
    Full,
}

/// What a listing reports.
#[derive(Clone, Debug, PartialEq, Eq)]
#[must_use = "a listing may stop at an error, or before the end"]
pub struct Listed {
    /// Why it stopped.
    pub stop: Stop,
    /// How many tokens were handed out.
    pub count: usize,
    /// Where the first token not handed out starts, or where an error leaves the position.
    pub position: usize,
}

/// What can be read of a token, by the numbers that the C calls have. Ids and Annotations are read by [`Token::name`]; their readers'
/// numbers, 2 and 3, are not used again.
#[derive(Clone, Copy, Debug, PartialEq, Eq)]
pub enum Reader {
    /// The token's own bytes.
    Src = 0,
    /// The bytes that a string stands for.
    String = 1,
    /// The digits of an Integer.
    Integer = 4,
    /// The digits before a Float's point, with its `-`.
    Integral = 5,
    /// Those behind its point, if there are any.
    Fraction = 6,
    /// Those of its exponent, with its `-`, if it has one.
    Exponent = 7,
    /// Those of a NaN's payload, if it has one.
    Payload = 8,
}

/// A name, and of which of the two tokens that have one: see [`Token::name`].
#[derive(Clone, Debug, PartialEq, Eq)]
pub enum Name<'a> {
    /// Of an Id, without its `$`.
    Id(Cow<'a, str>),
    /// Of an Annotation, without its `@`.
    Annotation(Cow<'a, str>),
}

impl<'a> Name<'a> {
    /// The name, whichever token it is of.
    #[must_use]
    pub fn as_str(&self) -> &str {
        match self {
            Name::Id(name) | Name::Annotation(name) => name,
        }
    }

    /// The same by value: a part of the text, or a copy where an escape had to be decoded.
    #[must_use]
    pub fn into_text(self) -> Cow<'a, str> {
        match self {
            Name::Id(name) | Name::Annotation(name) => name,
        }
    }
}

/// An integer's digits, ready to parse.
#[derive(Debug, PartialEq)]
pub struct Integer<'a> {
    sign: Option<SignToken>,
    val: Cow<'a, str>,
    hex: bool,
}

impl Integer<'_> {
    /// The sign as it is written.
    #[must_use]
    pub fn sign(&self) -> Option<SignToken> {
        self.sign
    }

    /// The digits, with their `-`, and their base.
    #[must_use]
    pub fn val(&self) -> (&str, u32) {
        (&self.val, if self.hex { 16 } else { 10 })
    }
}

/// A float's parts.
#[allow(missing_docs)]
#[derive(Debug, PartialEq, Eq)]
pub enum Float<'a> {
    /// `nan`, or `nan:0x..` with the digits of its payload.
    Nan { val: Option<Cow<'a, str>>, negative: bool },
    /// `inf`.
    Inf { negative: bool },
    /// Any other: digits before the point, with their `-`, behind it, and the exponent.
    Val { hex: bool, integral: Cow<'a, str>, fractional: Option<Cow<'a, str>>, exponent: Option<Cow<'a, str>> },
}

/// UTF-8 that the library gave; empty where it is not.
fn text(bytes: Cow<'_, [u8]>) -> Cow<'_, str> {
    match bytes {
        Cow::Borrowed(bytes) => Cow::Borrowed(std::str::from_utf8(bytes).unwrap_or_default()),
        Cow::Owned(bytes) => Cow::Owned(String::from_utf8(bytes).unwrap_or_default()),
    }
}

/// What the library gives of a token: a part of its bytes or a copy, or nothing.
type Given<'a> = Option<Cow<'a, [u8]>>;

/// A copy of up to so many bytes is read into a buffer on the stack first.
const SHORT: usize = 64;

impl Token {
    /// Its own bytes, if the text has so many there.
    fn own<'a>(&self, s: &'a str) -> Option<&'a str> {
        s.get(self.offset..self.offset.checked_add(self.len as usize)?)
    }

    /// Its own bytes as a text, and the token's words there; refused by 30 where the text has none such.
    fn alone<'a>(&self, s: &'a str) -> Result<(&'a [u8], [u64; 3]), Error> {
        let own = self.own(s).ok_or_else(|| Error::new(Refusal::NotThatToken, None))?;
        Ok((own.as_bytes(), [self.kind.number(), 0, self.len.into()]))
    }

    /// What a call of the library gives of the token, handed its own bytes, and the call's last word.
    fn read_by<'a>(
        &self,
        s: &'a str,
        call: impl Fn(&[u8], [u64; 3], &mut [u8]) -> [u64; 6],
    ) -> Result<(Given<'a>, u64), Error> {
        let (own, token) = self.alone(s)?;
        let (mut short, mut long) = ([0; SHORT], Vec::new());
        let mut buffer = &mut short[..];
        let mut answer = call(own, token, buffer);
        if answer[..2] == [2, 32] {
            // a buffer as long as the token holds every copy
            long.resize(own.len(), 0);
            buffer = &mut long[..];
            answer = call(own, token, buffer);
        }
        let [what, start, len, first, second, last] = answer;
        let part = start as usize..start.saturating_add(len) as usize;
        let bytes = match what {
            0 => None,
            1 => own.get(part).map(Cow::Borrowed),
            3 => buffer.get(part).map(|copy| Cow::Owned(copy.to_vec())),
            _ => return Err(Error::from_words([start, len, first, second]).moved(self.offset)),
        };
        Ok((bytes, last))
    }

    /// What a reader gives of the token, which is one of the text; nothing for a part that its kind lacks. Takes the time of
    /// the token and not of the text.
    ///
    /// ```
    /// use thallusweb::lexer::{Lexer, Reader};
    /// use thallusweb::Refusal;
    ///
    /// let text = r#""a\20b""#;
    /// let token = Lexer::new(text).parse(&mut 0)?.unwrap();
    /// assert_eq!(token.read(text, Reader::String)?.as_deref(), Some(&b"a b"[..]));
    /// assert_eq!(token.read(text, Reader::Integer).unwrap_err().refusal(), &Refusal::NotThatKind);
    /// # Ok::<(), thallusweb::Error>(())
    /// ```
    ///
    /// # Errors
    ///
    /// [`Refusal::NotThatToken`] where the text has no such token there, and [`Refusal::NotThatKind`] where the reader takes other kinds.
    pub fn read<'a>(&self, s: &'a str, reader: Reader) -> Result<Option<Cow<'a, [u8]>>, Error> {
        let call = |own: &[u8], token: [u64; 3], buffer: &mut [u8]| {
            let [what, start, len, first, second] = ffi::read(own, reader as u64, token, buffer);
            [what, start, len, first, second, 0]
        };
        self.read_by(s, call).map(|(bytes, _)| bytes)
    }

    fn part<'a>(&self, s: &'a str, reader: Reader) -> Option<Cow<'a, str>> {
        self.read(s, reader).ok().flatten().map(text)
    }

    /// The name of an Id, without its `$`, or of an Annotation, without its `@`, and of which of the two it is: no need to ask for the
    /// kind first, and to choose [`Token::id`] or [`Token::annotation`] by it. Takes the time of the token and not of the text.
    ///
    /// ```
    /// use thallusweb::Refusal;
    /// use thallusweb::lexer::{LexError, Lexer, Name};
    ///
    /// let name = |text: &'static str| Lexer::new(text).parse(&mut 0)?.unwrap().name(text);
    /// assert_eq!(name("$x"), Ok(Name::Id("x".into())));
    /// assert_eq!(name(r#"@"a\20b""#), Ok(Name::Annotation("a b".into())));
    /// assert_eq!(name("@x")?.as_str(), "x");
    /// assert_eq!(name("x").unwrap_err().refusal(), &Refusal::NotThatKind);
    /// assert_eq!(name("$").unwrap_err().lex_error(), Some(&LexError::EmptyId));
    /// assert_eq!(name(r#"@"""#).unwrap_err().lex_error(), Some(&LexError::EmptyAnnotation));
    /// # Ok::<(), thallusweb::Error>(())
    /// ```
    ///
    /// # Errors
    ///
    /// [`Refusal::NotThatToken`] where the text has no such token there, [`Refusal::NotThatKind`] where it has another kind, and a
    /// [`Refusal::Lex`] at the token's offset where the name is not UTF-8 ([`LexError::InvalidUtf8Id`]) or empty ([`LexError::EmptyId`],
    /// [`LexError::EmptyAnnotation`]).
    pub fn name<'a>(&self, s: &'a str) -> Result<Name<'a>, Error> {
        let (name, kind) = self.read_by(s, ffi::name)?;
        let name = text(name.unwrap_or_default());
        Ok(match TokenKind::given(kind) {
            TokenKind::Annotation => Name::Annotation(name),
            _ => Name::Id(name),
        })
    }

    /// Refuses by 31 a token of another kind, where it is one of the text at all.
    fn is_of(&self, s: &str, kind: TokenKind) -> Result<(), Error> {
        if self.kind == kind {
            return Ok(());
        }
        self.read(s, Reader::Src)?;
        Err(Error::new(Refusal::NotThatKind, None))
    }

    /// The token's own bytes; empty where the text has none such.
    #[must_use]
    pub fn src<'a>(&self, s: &'a str) -> &'a str {
        self.own(s).unwrap_or_default()
    }

    /// The name of an Id, without its `$`.
    ///
    /// # Errors
    ///
    /// Those of [`Token::name`], and [`Refusal::NotThatKind`] for an Annotation too.
    pub fn id<'a>(&self, s: &'a str) -> Result<Cow<'a, str>, Error> {
        self.is_of(s, TokenKind::Id)?;
        self.name(s).map(Name::into_text)
    }

    /// The name of an Annotation, without its `@`.
    ///
    /// # Errors
    ///
    /// Those of [`Token::name`], and [`Refusal::NotThatKind`] for an Id too.
    pub fn annotation<'a>(&self, s: &'a str) -> Result<Cow<'a, str>, Error> {
        self.is_of(s, TokenKind::Annotation)?;
        self.name(s).map(Name::into_text)
    }

    /// The bytes of a Keyword.
    #[must_use]
    pub fn keyword<'a>(&self, s: &'a str) -> &'a str {
        self.src(s)
    }

    /// The bytes of a Reserved token.
    #[must_use]
    pub fn reserved<'a>(&self, s: &'a str) -> &'a str {
        self.src(s)
    }

    /// Whether the text has the token: asked only where debug assertions are on.
    fn is_there(&self, s: &str) -> bool {
        self.read(s, Reader::Src).is_ok()
    }

    /// The bytes that a String stands for. A token that is none fails a debug assertion; without these its bytes are empty.
    #[must_use]
    pub fn string<'a>(&self, s: &'a str) -> Cow<'a, [u8]> {
        let value = self.read(s, Reader::String);
        debug_assert!(value.is_ok(), "{self:?} is no String of the text: {value:?}");
        value.ok().flatten().unwrap_or_default()
    }

    /// An Integer's sign and digits; the kind is what its [`TokenKind`] carries. A token that is none fails a debug assertion; without
    /// these it has no digits.
    #[must_use]
    pub fn integer<'a>(&self, s: &'a str, kind: IntegerKind) -> Integer<'a> {
        let token = Token { kind: TokenKind::Integer(kind), ..*self };
        debug_assert!(token.is_there(s), "{token:?} is no token of the text");
        Integer { sign: kind.sign, val: token.part(s, Reader::Integer).unwrap_or_default(), hex: kind.hex }
    }

    /// The word that a call of the library for so many bits gives.
    fn word(&self, s: &str, call: fn(&[u8], [u64; 3]) -> [u64; 5]) -> Result<u64, Error> {
        let (own, token) = self.alone(s)?;
        match call(own, token) {
            [1, word, ..] => Ok(word),
            [_, number, place, first, second] => {
                Err(Error::from_words([number, place, first, second]).moved(self.offset))
            }
        }
    }

    /// The value of an Integer, which is one of the text, as a word of 32 bits, by the standard; that of a negative number is its two's
    /// complement. Takes the time of the token and not of the text.
    ///
    /// ```
    /// use thallusweb::Refusal;
    /// use thallusweb::lexer::Lexer;
    ///
    /// let word = |text: &str| Lexer::new(text).parse(&mut 0)?.unwrap().u32(text);
    /// assert_eq!(word("0x1_0000"), Ok(65_536));
    /// assert_eq!(word("4294967295"), Ok(u32::MAX));
    /// assert_eq!(word("-2147483648"), Ok(0x8000_0000));
    /// assert_eq!(word("+2147483648").unwrap_err().refusal(), &Refusal::OutOfRange);
    /// ```
    ///
    /// # Errors
    ///
    /// [`Refusal::OutOfRange`] for all but these literals: numbers below 2^32 without a sign, below 2^31 with `+`, and up to 2^31 with `-`,
    /// decimal or hexadecimal, with underscores, and with any number of zeros in front. (wast's parser takes numbers below 2^32 with `+`
    /// too, such as `+2147483648`.) [`Refusal::NotThatToken`] where the text has no such token there, and [`Refusal::NotThatKind`] where
    /// it is no Integer.
    pub fn u32(&self, s: &str) -> Result<u32, Error> {
        self.word(s, ffi::integer_32).map(|word| word as u32)
    }

    /// An Integer's value as a word of 64 bits, as [`Token::u32`] has it for 32.
    ///
    /// ```
    /// use thallusweb::lexer::Lexer;
    ///
    /// let word = |text: &str| Lexer::new(text).parse(&mut 0)?.unwrap().u64(text);
    /// assert_eq!(word("18_446_744_073_709_551_615"), Ok(u64::MAX));
    /// assert_eq!(word("-1"), Ok(u64::MAX));
    /// ```
    ///
    /// # Errors
    ///
    /// [`Refusal::OutOfRange`] for all but numbers below 2^64 without a sign, below 2^63 with `+`, and up to 2^63 with `-`; the others are
    /// those of [`Token::u32`].
    pub fn u64(&self, s: &str) -> Result<u64, Error> {
        self.word(s, ffi::integer_64)
    }

    /// The word of [`Token::u32`] as a signed number: both take the same literals, so that 4294967295 is -1.
    ///
    /// ```
    /// use thallusweb::lexer::Lexer;
    ///
    /// let value = |text: &str| Lexer::new(text).parse(&mut 0)?.unwrap().i32(text);
    /// assert_eq!(value("-2147483648"), Ok(i32::MIN));
    /// assert_eq!(value("0xffff_fffe"), Ok(-2));
    /// ```
    ///
    /// # Errors
    ///
    /// Those of [`Token::u32`].
    pub fn i32(&self, s: &str) -> Result<i32, Error> {
        self.u32(s).map(|word| word as i32)
    }

    /// The word of [`Token::u64`] as a signed number: both take the same literals.
    ///
    /// ```
    /// use thallusweb::lexer::Lexer;
    ///
    /// let value = |text: &str| Lexer::new(text).parse(&mut 0)?.unwrap().i64(text);
    /// assert_eq!(value("-0x8000_0000_0000_0000"), Ok(i64::MIN));
    /// assert_eq!(value("18446744073709551615"), Ok(-1));
    /// ```
    ///
    /// # Errors
    ///
    /// Those of [`Token::u64`].
    pub fn i64(&self, s: &str) -> Result<i64, Error> {
        self.u64(s).map(|word| word as i64)
    }

    /// A Float's parts; the kind is what its [`TokenKind`] carries. A token that is none fails a debug assertion; without these its parts
    /// are empty.
    #[must_use]
    pub fn float<'a>(&self, s: &'a str, kind: FloatKind) -> Float<'a> {
        let token = Token { kind: TokenKind::Float(kind), ..*self };
        debug_assert!(token.is_there(s), "{token:?} is no token of the text");
        match kind {
            FloatKind::Inf { negative } => Float::Inf { negative },
            FloatKind::Nan { negative } => Float::Nan { val: None, negative },
            FloatKind::NanVal { negative, .. } => Float::Nan { val: token.part(s, Reader::Payload), negative },
            FloatKind::Normal { hex, .. } => {
                // a part whose mark is not there is absent, and need not be asked for
                let part =
                    |marks: &[char], reader| self.src(s).contains(marks).then(|| token.part(s, reader)).flatten();
                Float::Val {
                    hex,
                    integral: token.part(s, Reader::Integral).unwrap_or_default(),
                    fractional: part(&['.'], Reader::Fraction),
                    exponent: part(if hex { &['p', 'P'] } else { &['e', 'E'] }, Reader::Exponent),
                }
            }
        }
    }
}
