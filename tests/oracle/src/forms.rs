//! The folding of forms (docs/RULES.md, 18), over the original's `parse`: a count of the parentheses among its tokens.

use crate::lexer::TokenKind;
use crate::{Answer, Fault, Oracle};

/// How deep forms may stand in each other, the outer one being level 1.
pub const LEVELS: usize = 64;

/// Why a form has no end.
#[derive(Clone, Copy, Debug, PartialEq, Eq)]
pub enum Unfolded {
    /// 31: no LParen token stands at the position.
    NoForm,
    /// 10 to 21 or 25, of a later token.
    Fault(Fault),
    /// 41, at the opening of a level too many.
    TooDeep { place: usize },
    /// 42, at the end of the text.
    Unclosed { place: usize },
}

impl Oracle<'_> {
    /// The position past the RParen that matches the LParen at a position, or what comes before it.
    pub fn fold(&self, position: usize) -> Result<usize, Unfolded> {
        let (first, mut at) = self.parse(position);
        if !matches!(first, Answer::Token(token) if token.0.kind == TokenKind::LParen) {
            return Err(Unfolded::NoForm);
        }
        let mut open = 1;
        while open > 0 {
            let (answer, after) = self.parse(at);
            match answer {
                Answer::End => return Err(Unfolded::Unclosed { place: self.text().len() }),
                Answer::Fault(fault) => return Err(Unfolded::Fault(fault)),
                Answer::Token(token) => match token.0.kind {
                    TokenKind::LParen if open == LEVELS => return Err(Unfolded::TooDeep { place: token.offset() }),
                    TokenKind::LParen => open += 1,
                    TokenKind::RParen => open -= 1,
                    _ => {}
                },
            }
            at = after;
        }
        Ok(at)
    }
}
