//! A lexer for the WebAssembly text format with one proved reading, for users of `wast::lexer`.
//!
//! The lexer is proved, in Rattle, to answer as the standard and the crate wast 262.0.0 say; this crate hands texts to it and its
//! answers back, under wast's names. To switch, change the import:
//!
//! ```
//! // use wast::lexer::{Lexer, TokenKind};
//! use thallusweb::lexer::{Lexer, TokenKind};
//!
//! let text = "(module $m) ;; one";
//! let lexer = Lexer::new(text);
//! let mut words = Vec::new();
//! for token in lexer.iter(0) {
//!     let token = token?;
//!     match token.kind {
//!         TokenKind::Id => words.push(token.id(text)?.into_owned()),
//!         TokenKind::Keyword => words.push(token.keyword(text).to_string()),
//!         _ => {}
//!     }
//! }
//! assert_eq!(words, ["module", "m"]);
//! # Ok::<(), thallusweb::Error>(())
//! ```
//!
//! What differs, and why:
//!
//! * No text and no position makes a call panic, and no token without debug assertions. A position past the end or inside a character, a
//!   token that is not there, and a text over 16 MiB are refused ([`Refusal`]), where wast panics or goes on.
//! * [`lexer::Token::src`], [`string`](lexer::Token::string), [`integer`](lexer::Token::integer) and [`float`](lexer::Token::float) have
//!   no error to give, as in wast: of a token that is not there they give what is empty, and [`lexer::Token::read`] says why. For the last
//!   three such a token is a mistake of the program, and fails a `debug_assert!`.
//! * [`Error`] has a [`Refusal`] and a place in bytes: no span, no path and no excerpt of the text. [`Error::linecol_in`] and [`Place`]
//!   count lines and columns; a line ends at LF, CR or CR LF, where wast's ends at LF alone. `Display` is one line. There is no
//!   constructor that takes a message.
//! * [`lexer::LexError`] has no `InvalidDigit`, which wast declares and never builds; its `InvalidUtf8Id` carries [`lexer::Utf8Error`],
//!   our own type with the methods of `std::str::Utf8Error`.
//! * [`Settings`] is a value that a builder makes and [`lexer::Lexer::with_settings`] takes, so that it can be a constant and serve many
//!   texts; [`lexer::Lexer::allow_confusing_unicode`] is there as in wast. [`lexer::Lexer::strict_digits`], off by default, is the standard's
//!   rule that wast does not have: with it on `"\u{1__0}"` is refused by [`lexer::LexError::DoubleUnderscore`].
//! * The library checks at each call that what it is given is UTF-8. [`lexer::Lexer::parse`], [`annotation`](lexer::Lexer::annotation)
//!   and [`iter`](lexer::Lexer::iter) give it windows of the text, and the readers just the token's own bytes, which is proved to give
//!   the same: a loop over any of them takes time in line with the text. [`lexer::Lexer::fold`] goes by windows too, and takes time in
//!   line with the form. [`lexer::Lexer::list`] checks the whole text once.
//! * There is more: [`lexer::Lexer::list`], [`lexer::Lexer::from_bytes`], [`lexer::check_utf8`], the numbers of kinds and refusals; the
//!   name of an Id or an Annotation, and of which of the two it is, [`lexer::Token::name`]; the end of a form, [`lexer::Lexer::fold`];
//!   and the value of an integer by the standard, [`u32`](lexer::Token::u32), [`u64`](lexer::Token::u64), [`i32`](lexer::Token::i32) and
//!   [`i64`](lexer::Token::i64) of a token. wast's parser takes more: `+2147483648` to `+4294967295` for an `i32`, and the like for an
//!   `i64`.
//!
//! One value is found for each token of a text that [`lexer::Lexer::iter`] carries from 0 to its end; the one refusal left of its reader
//! is a name that is empty or not UTF-8.

mod ffi;
mod iter;
pub mod lexer;
mod place;
mod refusal;
mod settings;
mod window;

pub use place::Place;
pub use refusal::{Error, Refusal};
pub use settings::Settings;

/// The example of the README is compiled and run with the others.
#[cfg(doctest)]
#[doc = include_str!("../README.md")]
struct Readme;
