//! How a text is lexed.

use crate::ffi;

/// How a text is lexed: each setting is off until it is turned on.
///
/// ```
/// use thallusweb::Settings;
/// use thallusweb::lexer::Lexer;
///
/// const ALLOWING: Settings = Settings::new().allow_confusing_unicode(true);
///
/// let text = "(; \u{202e} ;)";
/// assert!(Lexer::new(text).parse(&mut 0).is_err());
/// assert!(Lexer::with_settings(text, ALLOWING).parse(&mut 0).is_ok());
/// ```
///
/// A token is read without settings: the readers take confusing characters, and digits that are not strict. So whatever a lexer hands out
/// is theirs.
#[derive(Clone, Copy, Debug, Default, PartialEq, Eq, Hash)]
pub struct Settings {
    allow_confusing_unicode: bool,
    strict_digits: bool,
}

impl Settings {
    /// All off, as [`Lexer::new`](crate::lexer::Lexer::new) has them.
    #[must_use]
    pub const fn new() -> Settings {
        Settings { allow_confusing_unicode: false, strict_digits: false }
    }

    /// Whether the nine characters that turn the direction of text may stand raw in strings and comments.
    #[must_use]
    pub const fn allow_confusing_unicode(mut self, allow: bool) -> Self {
        self.allow_confusing_unicode = allow;
        self
    }

    /// Whether confusing characters are allowed.
    #[must_use]
    pub const fn allows_confusing_unicode(&self) -> bool {
        self.allow_confusing_unicode
    }

    /// Whether only a single underscore may stand between two digits of a `\u{..}`, as the WebAssembly standard has it; else any number may,
    /// as in wast. The second underscore of a pair is [`LexError::DoubleUnderscore`](crate::lexer::LexError::DoubleUnderscore).
    ///
    /// ```
    /// use thallusweb::Settings;
    /// use thallusweb::lexer::{LexError, Lexer};
    ///
    /// const STRICT: Settings = Settings::new().strict_digits(true);
    ///
    /// let text = r#""\u{1__0}""#;
    /// let token = Lexer::new(text).parse(&mut 0)?.unwrap();
    /// assert_eq!(token.string(text)[..], [0x10]);
    /// let error = Lexer::with_settings(text, STRICT).parse(&mut 0).unwrap_err();
    /// assert_eq!((error.lex_error(), error.place()), (Some(&LexError::DoubleUnderscore), Some(6)));
    /// assert!(Lexer::with_settings(r#""\u{1_0}""#, STRICT).parse(&mut 0).is_ok());
    /// # Ok::<(), thallusweb::Error>(())
    /// ```
    #[must_use]
    pub const fn strict_digits(mut self, strict: bool) -> Self {
        self.strict_digits = strict;
        self
    }

    /// Whether digits are strict.
    #[must_use]
    pub const fn has_strict_digits(&self) -> bool {
        self.strict_digits
    }

    /// The word of bits that the C calls take.
    pub(crate) const fn word(self) -> u32 {
        let confusing = if self.allow_confusing_unicode { ffi::ALLOW_CONFUSING } else { 0 };
        let strict = if self.strict_digits { ffi::STRICT_DIGITS } else { 0 };
        confusing | strict
    }
}
