//! A token, and what the original's readers make of it. A `Cow` is borrowed exactly where theirs is.

use crate::lexer::{self, SignToken, TokenKind};
use crate::{Fault, Oracle, numbers};
use std::borrow::Cow;

/// A token that the original gave.
#[derive(Clone, Copy, Debug, PartialEq)]
pub struct Token(pub lexer::Token);

impl Token {
    /// The number of its kind, details included.
    pub fn kind(&self) -> u16 {
        numbers::of_kind(self.0.kind)
    }

    pub fn offset(&self) -> usize {
        self.0.offset
    }

    /// Its length, which is never 0.
    #[expect(clippy::len_without_is_empty)]
    pub fn len(&self) -> u32 {
        self.0.len
    }
}

/// What the readers of an integer leave.
#[derive(Debug, PartialEq)]
pub struct Integer<'a> {
    pub sign: Option<SignToken>,
    pub digits: Cow<'a, str>,
}

/// What the readers of a float leave: the parts that its kind has.
#[derive(Debug, Default, PartialEq)]
pub struct Float<'a> {
    pub negative: Option<bool>,
    pub integral: Option<Cow<'a, str>>,
    pub fraction: Option<Cow<'a, str>>,
    pub exponent: Option<Cow<'a, str>>,
    pub payload: Option<Cow<'a, str>>,
}

/// The readers, each for a token of this text. All but `src` give nothing for a token of another kind than theirs: there
/// the original panics or gives nonsense, and rule 11 refuses by 31.
impl<'a> Oracle<'a> {
    /// The token's own bytes.
    pub fn src(&self, token: &Token) -> &'a str {
        token.0.src(self.text())
    }

    pub fn string(&self, token: &Token) -> Option<Cow<'a, [u8]>> {
        match token.0.kind {
            TokenKind::String => Some(token.0.string(self.text())),
            _ => None,
        }
    }

    /// The name of an Id or of an Annotation, by the original's reader for that kind.
    pub fn name(&self, token: &Token) -> Option<Result<Cow<'a, str>, Fault>> {
        let name = match token.0.kind {
            TokenKind::Id => token.0.id(self.text()),
            TokenKind::Annotation => token.0.annotation(self.text()),
            _ => return None,
        };
        Some(name.map_err(Fault::from))
    }

    pub fn integer(&self, token: &Token) -> Option<Integer<'a>> {
        let TokenKind::Integer(kind) = token.0.kind else {
            return None;
        };
        let integer = token.0.integer(self.text(), kind);
        Some(Integer { sign: integer.sign(), digits: borrowed_from(self.text(), integer.val().0) })
    }

    pub fn float(&self, token: &Token) -> Option<Float<'a>> {
        let TokenKind::Float(kind) = token.0.kind else {
            return None;
        };
        Some(match token.0.float(self.text(), kind) {
            lexer::Float::Inf { negative } => Float { negative: Some(negative), ..Float::default() },
            lexer::Float::Nan { val, negative } => Float { negative: Some(negative), payload: val, ..Float::default() },
            lexer::Float::Val { hex: _, integral, fractional, exponent } => {
                Float { integral: Some(integral), fraction: fractional, exponent, ..Float::default() }
            }
        })
    }
}

/// The `Cow` that the original's `Integer` hides: borrowed if the part, which isn't empty, lies in the text.
fn borrowed_from<'a>(text: &'a str, part: &str) -> Cow<'a, str> {
    let start = part.as_ptr().addr().wrapping_sub(text.as_ptr().addr());
    match start.checked_add(part.len()) {
        Some(end) if end <= text.len() => Cow::Borrowed(&text[start..end]),
        _ => Cow::Owned(part.to_string()),
    }
}
