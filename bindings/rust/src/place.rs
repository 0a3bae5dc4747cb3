//! Lines and columns.

use crate::{Refusal, ffi};

/// A place counter: line and column, each from 1. Columns count bytes. A line ends at LF, at CR, and at CR LF together, also where the CR
/// ends one move and the LF begins the next.
///
/// ```
/// let mut place = thallusweb::Place::new();
/// place.move_over(b"(module\n  ")?;
/// assert_eq!((place.line(), place.column()), (2, 3));
/// // one line end, in two moves
/// place.move_over(b"(func)\r")?;
/// assert_eq!((place.line(), place.column()), (3, 1));
/// place.move_over(b"\n)")?;
/// assert_eq!((place.line(), place.column()), (3, 2));
/// # Ok::<(), thallusweb::Refusal>(())
/// ```
///
/// Two are equal if line and column are, and if both or neither stand right behind a CR: then every move leaves them equal.
#[derive(Clone, Copy, Debug, PartialEq, Eq)]
pub struct Place([u32; 3]);

impl Place {
    /// Where a text begins: line 1, column 1.
    #[must_use]
    pub fn new() -> Place {
        Place([1, 1, 0])
    }

    /// The line, from 1.
    #[must_use]
    pub fn line(&self) -> u32 {
        self.0[0]
    }

    /// The column, from 1, in bytes.
    #[must_use]
    pub fn column(&self) -> u32 {
        self.0[1]
    }

    /// Moves over some bytes of the text, those of a token, say.
    ///
    /// # Errors
    ///
    /// [`Refusal::CounterFull`] where line or column would not fit 32 bits; the counter stays as it was.
    pub fn move_over(&mut self, bytes: &[u8]) -> Result<(), Refusal> {
        if ffi::move_over(&mut self.0, bytes) { Ok(()) } else { Err(Refusal::CounterFull) }
    }
}

impl Default for Place {
    fn default() -> Place {
        Place::new()
    }
}
