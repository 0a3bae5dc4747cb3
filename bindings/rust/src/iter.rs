//! Tokens one after the other, listed through windows of the text.

use crate::lexer::{Lexer, Listed, Stop, Token, TokenKind};
use crate::refusal::Error;
use crate::window::{is_decided, refused, window};

/// The window with which listing begins, and with which it goes on behind an error; and the one up to which it grows by itself.
pub const LEAST: usize = 256;
const MOST: usize = 1 << 14;

/// Tokens one after the other: see [`Lexer::iter`].
///
/// A listing checks the text that it is given. So it is given a window of it, which grows until a token ends inside it: all items
/// together take as long as the text is, however many there are. That what is handed out are the text's own tokens and errors is proved
/// (docs/ARCHITECTURE.md, windows).
#[derive(Clone, Debug)]
#[must_use = "nothing is lexed until items are asked for"]
pub struct Iter<'a> {
    lexer: Lexer<'a>,
    /// where the next listing starts
    position: usize,
    /// where the next token of the listing starts
    offset: usize,
    records: Vec<u8>,
    next: usize,
    stop: Stop,
    window: usize,
}

impl<'a> Iter<'a> {
    pub(crate) fn new(lexer: Lexer<'a>, position: usize) -> Iter<'a> {
        Iter::by(lexer, position, LEAST)
    }

    /// By windows that begin with a size.
    pub(crate) fn by(lexer: Lexer<'a>, position: usize, window: usize) -> Iter<'a> {
        Iter { lexer, position, offset: position, records: Vec::new(), next: 0, stop: Stop::Budget, window }
    }

    /// Lists some more tokens.
    fn fill(&mut self) {
        self.next = 0;
        self.offset = self.position;
        let text = self.lexer.input();
        if let Some(error) = refused(text, self.position) {
            self.records.clear();
            self.stop = Stop::Error(error);
            return;
        }
        loop {
            let window = window(text, self.position, self.window);
            let listed = self.list(window);
            let error = match &listed.stop {
                Stop::Error(error) => Some(error),
                Stop::End | Stop::Budget | Stop::Full => None,
            };
            if self.position + window.len() == text.len() || is_decided(error, listed.position, window) {
                self.window = if error.is_some() { LEAST } else { MOST.min(2 * self.window) };
                self.records.truncate(Lexer::RECORD * listed.count);
                self.stop = match listed.stop {
                    Stop::Error(error) => Stop::Error(error.moved(self.position)),
                    stop => stop,
                };
                self.position += listed.position;
                return;
            }
            // every token is the text's, but one that ends where the window does
            let count = listed.count - usize::from(listed.stop == Stop::End);
            self.window *= 2;
            if count > 0 {
                self.window = self.window.min(MOST);
                self.records.truncate(Lexer::RECORD * count);
                self.position +=
                    self.records.chunks_exact(Lexer::RECORD).map(|record| length(record) as usize).sum::<usize>();
                self.stop = Stop::Budget;
                return;
            }
        }
    }

    /// The listing of a window, with room for all of its tokens.
    fn list(&mut self, window: &str) -> Listed {
        self.records.resize(Lexer::RECORD * window.len(), 0);
        Lexer::with_settings(window, self.lexer.settings()).list(0, usize::MAX, &mut self.records)
    }

    /// The next token of the listing.
    fn record(&mut self) -> Option<Token> {
        let record = self.records.get(self.next..self.next + Lexer::RECORD)?;
        let (len, kind) = (length(record), u16::from_le_bytes([record[4], record[5]]));
        let token = Token { kind: TokenKind::given(kind.into()), offset: self.offset, len };
        self.next += Lexer::RECORD;
        self.offset += len as usize;
        Some(token)
    }
}

/// The length that a record says.
fn length(record: &[u8]) -> u32 {
    u32::from_le_bytes([record[0], record[1], record[2], record[3]])
}

impl Iterator for Iter<'_> {
    type Item = Result<Token, Error>;

    fn next(&mut self) -> Option<Result<Token, Error>> {
        loop {
            if let Some(token) = self.record() {
                return Some(Ok(token));
            }
            match std::mem::replace(&mut self.stop, Stop::Budget) {
                Stop::Budget | Stop::Full => self.fill(),
                Stop::Error(error) => return Some(Err(error)),
                Stop::End => {
                    self.stop = Stop::End;
                    return None;
                }
            }
        }
    }
}
