//! What users of `wast::lexer` count on, and what is ours: no panic, refusals, places.

use std::borrow::Cow;
use thallusweb::lexer::{Float, LexError, Lexer, Listed, Name, Reader, SignToken, Stop, Token, TokenKind};
use thallusweb::{Error, Place, Refusal, Settings};

fn one(text: &str) -> Token {
    Lexer::new(text).parse(&mut 0).unwrap().unwrap()
}

#[test]
fn iter_gives_what_parse_gives() {
    let text = "(module (; a (; b ;) ;) $x 0x1_0 -1.5e3 \"a\\n\" @custom) ;; end\n";
    let lexer = Lexer::new(text);
    let mut position = 0;
    let mut parsed = Vec::new();
    while let Some(token) = lexer.parse(&mut position).unwrap() {
        parsed.push(token);
    }
    let listed: Vec<Token> = lexer.iter(0).map(Result::unwrap).collect();
    assert_eq!(listed, parsed);
    assert_eq!(listed.iter().map(|token| token.len as usize).sum::<usize>(), text.len());
    let many = "a ".repeat(100_000);
    assert_eq!(Lexer::new(&many).iter(0).count(), 200_000);
}

#[test]
fn iter_goes_on_behind_an_error() {
    let mut items = Lexer::new("a \"\\q\" b").iter(0);
    let kinds: Vec<Result<TokenKind, Refusal>> = items
        .by_ref()
        .take(5)
        .map(|item| item.map(|token| token.kind).map_err(|error| error.refusal().clone()))
        .collect();
    assert_eq!(kinds[2], Err(Refusal::Lex(LexError::InvalidStringEscape('q'))));
    assert!(matches!(kinds[3], Err(Refusal::Lex(LexError::UnexpectedEof))));
    let mut stuck = Lexer::new("(;").iter(0);
    assert!((0..3).all(|_| stuck.next().unwrap().unwrap_err().lex_error() == Some(&LexError::DanglingBlockComment)));
}

#[test]
fn readers_borrow_where_nothing_was_escaped() {
    let token = one("\"abc\"");
    assert!(matches!(token.string("\"abc\""), Cow::Borrowed(b"abc")));
    let text = "\"\\u{41}\\ff\"";
    assert!(matches!(one(text).string(text), Cow::Owned(bytes) if bytes == b"A\xff"));
    let text = "-0x1_0";
    let TokenKind::Integer(kind) = one(text).kind else { panic!() };
    let integer = one(text).integer(text, kind);
    assert_eq!((integer.sign(), integer.val()), (Some(SignToken::Minus), ("-10", 16)));
    let text = "1.e5";
    let TokenKind::Float(kind) = one(text).kind else { panic!() };
    let expected = Float::Val { hex: false, integral: "1".into(), fractional: None, exponent: Some("5".into()) };
    assert_eq!(one(text).float(text, kind), expected);
}

/// The request's examples, edges of both widths, and what is refused.
#[test]
fn values_of_integers() {
    let values = |text: &str| {
        let token = one(text);
        (token.u32(text).ok(), token.i32(text).ok(), token.u64(text).ok(), token.i64(text).ok())
    };
    let small = |n: u32| (Some(n), Some(n as i32), Some(n.into()), Some(n.into()));
    let negative = |n: i32| (Some(n as u32), Some(n), Some(i64::from(n) as u64), Some(n.into()));
    let wide = |n: u64| (None, None, Some(n), Some(n as i64));
    assert_eq!(values("0"), small(0));
    assert_eq!(values("-0"), small(0));
    assert_eq!(values("+0x7fff_FFFF"), small(0x7fff_ffff));
    assert_eq!(values("4294967295"), small(u32::MAX));
    assert_eq!(values("4294967296"), wide(1 << 32));
    assert_eq!(values("-2147483648"), negative(i32::MIN));
    assert_eq!(values("+2147483648"), wide(1 << 31));
    assert_eq!(values("-2147483649"), wide(-2_147_483_649_i64 as u64));
    assert_eq!(values("18446744073709551615"), wide(u64::MAX));
    assert_eq!(values("-0x8000000000000000"), wide(1 << 63));
    for text in ["18446744073709551616", "+9223372036854775808", "-9223372036854775809"] {
        assert_eq!(values(text), (None, None, None, None));
    }
    // zeros in front without limit
    let text = format!("(a {}7)", "0_0".repeat(1_000));
    let token = Lexer::new(&text).parse(&mut 3).unwrap().unwrap();
    assert_eq!((token.len, token.u32(&text), token.i64(&text)), (3_001, Ok(7), Ok(7)));
    // refusals, none of which has a place
    let text = "(18446744073709551616 1.5 x)";
    let at = |mut position| Lexer::new(text).parse(&mut position).unwrap().unwrap();
    let integer = at(1);
    let rows = [
        (Token { len: 21, ..integer }, Refusal::NotThatToken),
        (Token { len: 99, ..integer }, Refusal::NotThatToken),
        (Token { offset: usize::MAX, ..integer }, Refusal::NotThatToken),
        (Token { kind: TokenKind::Keyword, ..integer }, Refusal::NotThatToken),
        (at(22), Refusal::NotThatKind),
        (at(26), Refusal::NotThatKind),
        (integer, Refusal::OutOfRange),
    ];
    for (token, refusal) in rows {
        let refused = Err(Error::from(refusal));
        assert_eq!((token.u32(text), token.i32(text).map(|n| n as u32)), (refused.clone(), refused.clone()));
        assert_eq!(token.u64(text), token.i64(text).map(|n| n as u64));
        assert_eq!(token.u64(text).map(|n| n as u32), refused);
    }
}

/// The request's examples, the deepest level, and what is refused.
#[test]
fn ends_of_forms() {
    let fold = |text: &str, position| Lexer::new(text).fold(position);
    let refused = |text: &str, position| {
        let error = fold(text, position).unwrap_err();
        (error.refusal().clone(), error.place())
    };
    assert_eq!(fold("(a (b))", 0), Ok(7));
    assert_eq!(fold("(a (b))", 3), Ok(6));
    assert_eq!(fold("(; ) ;)(a)", 7), Ok(10));
    assert_eq!(fold("(@x \")\" ;;)\n)", 0), Ok(13));
    assert_eq!(refused("(a (b)", 0), (Refusal::Unclosed, Some(6)));
    assert_eq!(refused("a(\"\\q\")", 1), (Refusal::Lex(LexError::InvalidStringEscape('q')), Some(4)));
    assert_eq!(fold("a(b (;)", 1).unwrap_err().to_string(), "unterminated block comment at byte 4");
    // no `(`, none that opens a form, and an error in its place
    for (text, position) in
        [("(; ) ;)(a)", 0), ("(a)", 1), ("(a)", 2), ("(a)", 3), ("", 0), ("(;", 0), ("\"\\q\"", 0), ("é", 0)]
    {
        assert_eq!(refused(text, position), (Refusal::NotThatKind, None), "{text:?} at {position}");
    }
    // refused before all
    assert_eq!(refused("é(", 1), (Refusal::InsideCharacter, Some(1)));
    assert_eq!(refused("(a)", 4), (Refusal::PastEnd, Some(4)));
    assert_eq!(refused(&"(".repeat(Lexer::MAX_TEXT + 1), usize::MAX), (Refusal::TooLong, Some(usize::MAX)));
    // levels, each with what is far longer than a window
    let long = format!("(;{};)(b \"{}\") ", ")".repeat(300), ")".repeat(300));
    let nested = |levels: usize| format!("a {}{}", format!("({long}").repeat(levels), ")".repeat(levels));
    assert_eq!(fold(&nested(Lexer::LEVELS - 1), 2), Ok(nested(Lexer::LEVELS - 1).len()));
    let text = nested(Lexer::LEVELS);
    assert_eq!(refused(&text, 2), (Refusal::TooDeep, text.rfind("(b")));
    let (deepest, too_deep) = ("(".repeat(64), "(".repeat(65));
    assert_eq!(refused(&deepest, 0), (Refusal::Unclosed, Some(64)));
    assert_eq!(refused(&too_deep, 0), (Refusal::TooDeep, Some(64)));
    assert_eq!(refused(&too_deep, 1), (Refusal::Unclosed, Some(65)));
    assert_eq!(fold(&too_deep, 0).unwrap_err().linecol_in(&too_deep), Some((0, 64)));
    assert_eq!(fold(&format!("{deepest}{}", ")".repeat(65)), 0), Ok(128));
}

/// One call for both tokens that have a name, and wast's two, which take one each.
#[test]
fn names() {
    // behind the `$` or `@`; what is borrowed, and what is copied
    let long = "語".repeat(30);
    let (quoted, escaped) = (format!("\"{long}\""), format!("\"\\u{{61}}{long}\""));
    let rows = [
        ("x", Cow::Borrowed("x")),
        ("$@", Cow::Borrowed("$@")),
        ("\"a b\"", Cow::Borrowed("a b")),
        ("\"é\"", Cow::Borrowed("é")),
        (&quoted, Cow::Borrowed(&long)),
        ("\"a\\20b\"", Cow::Owned("a b".to_string())),
        ("\"\\c3\\a9\"", Cow::Owned("é".to_string())),
        (&escaped, Cow::Owned(format!("a{long}"))),
    ];
    for (behind, name) in rows {
        for (sigil, kind) in [('$', TokenKind::Id), ('@', TokenKind::Annotation)] {
            let text = format!("é ({sigil}{behind})");
            let token = Lexer::new(&text).parse(&mut 4).unwrap().unwrap();
            let read = token.name(&text).unwrap();
            assert_eq!(matches!(read, Name::Id(_)), kind == TokenKind::Id, "{text}");
            assert_eq!((read.as_str(), token.kind), (&*name, kind), "{text}");
            let (alone, other) = match kind {
                TokenKind::Id => (token.id(&text), token.annotation(&text)),
                _ => (token.annotation(&text), token.id(&text)),
            };
            assert_eq!(other, Err(Error::from(Refusal::NotThatKind)), "{text}");
            for read in [alone.unwrap(), read.into_text()] {
                assert_eq!(
                    (matches!(read, Cow::Borrowed(_)), &read),
                    (matches!(name, Cow::Borrowed(_)), &name),
                    "{text}"
                );
            }
        }
    }
}

#[test]
fn names_that_are_none() {
    let text = "x $ $\"\" $\"\\ff\" @ @\"\" @\"a\\c3\" \"s\" 7";
    let lexer = Lexer::new(text);
    let refused = |read: Result<&str, &Error>| {
        let error = read.unwrap_err();
        (error.refusal().number(), error.place())
    };
    let told = |token: &Token| {
        let (name, id, annotation) = (token.name(text), token.id(text), token.annotation(text));
        let name = refused(name.as_ref().map(Name::as_str));
        [name, refused(id.as_deref()), refused(annotation.as_deref())]
    };
    let other = (31, None);
    let rows = [
        (0, [other; 3]),
        (2, [(23, Some(2)), (23, Some(2)), other]),
        (4, [(23, Some(4)), (23, Some(4)), other]),
        (8, [(22, Some(8)), (22, Some(8)), other]),
        (15, [(24, Some(15)), other, (24, Some(15))]),
        (17, [(24, Some(17)), other, (24, Some(17))]),
        (21, [(22, Some(21)), other, (22, Some(21))]),
        (29, [other; 3]),
        (33, [other; 3]),
    ];
    let mut tokens = lexer.iter(0).map(Result::unwrap).filter(|token| token.kind != TokenKind::Whitespace);
    for (offset, expected) in rows {
        let token = tokens.next().unwrap();
        assert_eq!((token.offset, told(&token)), (offset, expected), "at {offset}");
        // what is not there is refused before its kind and its name are looked at
        let swapped = match token.kind {
            TokenKind::Id => TokenKind::Annotation,
            TokenKind::Annotation => TokenKind::Id,
            _ => TokenKind::Whitespace,
        };
        for wrong in [
            Token { kind: swapped, ..token },
            Token { len: token.len + 1, ..token },
            Token { len: 0, ..token },
            Token { offset: 1, ..token },
            Token { offset: usize::MAX, ..token },
        ] {
            assert_eq!(told(&wrong), [(30, None); 3], "{wrong:?}");
        }
    }
    assert_eq!(tokens.next(), None);
    let error = one("$\"a\\c3\"").name("$\"a\\c3\"").unwrap_err();
    let Some(LexError::InvalidUtf8Id(utf8)) = error.lex_error() else { panic!("{error:?}") };
    assert_eq!((utf8.valid_up_to(), utf8.error_len()), (1, None));
    assert_eq!(error.message(), "malformed UTF-8 encoding of string-based id");
    assert_eq!(one("@").annotation("@").unwrap_err().message(), "empty annotation id");
}

#[test]
fn settings() {
    let allowing = Settings::new().allow_confusing_unicode(true);
    assert_eq!((Settings::new().allows_confusing_unicode(), allowing.allows_confusing_unicode()), (false, true));
    assert_eq!((Settings::default(), allowing.allow_confusing_unicode(false)), (Settings::new(), Settings::new()));
    let text = "@\"\u{202e}\"";
    let mut lexer = Lexer::new(text);
    assert_eq!(lexer.settings(), Settings::new());
    assert_eq!(lexer.allow_confusing_unicode(true).settings(), allowing);
    assert_eq!(lexer.allow_confusing_unicode(false).settings(), Settings::new());
    for (settings, allows) in [(Settings::new(), false), (allowing, true)] {
        let lexer = Lexer::with_settings(text, settings);
        assert_eq!(lexer.settings(), settings);
        assert_eq!(lexer.parse(&mut 0).is_ok(), allows);
        assert_eq!(lexer.annotation(0).is_ok(), allows);
        assert_eq!(Lexer::with_settings(&format!("({text})"), settings).fold(0).is_ok(), allows);
        assert_eq!(lexer.iter(0).all(|token| token.is_ok()), allows);
        assert_eq!(lexer.list(0, 1, &mut [0; Lexer::RECORD]).count, usize::from(allows));
    }
}

/// Each setting by itself, whatever the other is.
#[test]
fn settings_are_independent() {
    let strict = Settings::new().strict_digits(true);
    assert_eq!((Settings::new().has_strict_digits(), strict.has_strict_digits()), (false, true));
    assert_eq!(strict.strict_digits(false), Settings::new());
    assert!(!strict.allows_confusing_unicode());
    let both = strict.allow_confusing_unicode(true);
    assert_eq!(both, Settings::new().allow_confusing_unicode(true).strict_digits(true));
    assert_eq!((both.allow_confusing_unicode(false), both.allows_confusing_unicode()), (strict, true));
    let mut lexer = Lexer::new("");
    assert_eq!(lexer.strict_digits(true).settings(), strict);
    assert_eq!(lexer.allow_confusing_unicode(true).settings(), both);
    assert_eq!(lexer.strict_digits(false).allow_confusing_unicode(false).settings(), Settings::new());
    let text = "\"\u{202e}\\u{1__0}\"";
    for (allow, strict, number) in [(false, false, 21), (true, false, 0), (false, true, 21), (true, true, 25)] {
        let mut lexer = Lexer::new(text);
        let found = lexer.allow_confusing_unicode(allow).strict_digits(strict).parse(&mut 0);
        assert_eq!(found.err().map_or(0, |error| error.refusal().number()), number);
    }
}

/// The number and the place of a refusal, if there is one.
type Refused = Option<(u64, usize)>;

/// The request's examples, each with the setting off and on, asked of every call.
#[test]
fn strict_digits() {
    let rows: [(&str, Refused, Refused); 16] = [
        (r#""\u{1__0}""#, None, Some((25, 6))),
        (r#""\u{1___0}""#, None, Some((25, 6))),
        (r#""\u{1__}""#, Some((20, 6)), Some((25, 6))),
        (r#""\u{1__"#, Some((20, 6)), Some((25, 6))),
        (r#""\u{d8__00}""#, Some((19, 9)), Some((25, 7))),
        (r#""\u{1__fffffffff}""#, Some((18, 14)), Some((25, 6))),
        (r#""\u{1__0}\q""#, Some((13, 10)), Some((25, 6))),
        // the same with both
        (r#""\u{1_0}""#, None, None),
        (r#""\u{10}""#, None, None),
        (r#""\u{1_}""#, Some((20, 5)), Some((20, 5))),
        (r#""\u{1_"#, Some((20, 5)), Some((20, 5))),
        (r#""\u{_1}""#, Some((14, 4)), Some((14, 4))),
        (r#""\u{fffffffff__"#, Some((18, 12)), Some((18, 12))),
        (r#""\\u{1__0}""#, None, None),
        (r#""__""#, None, None),
        ("1__0", None, None),
    ];
    for (text, off, on) in rows {
        let named = format!("@{text}");
        let form = format!("(a {text})");
        for (strict, expected) in [(false, off), (true, on)] {
            let settings = Settings::new().strict_digits(strict);
            let told = |error: &Error| (error.refusal().number(), error.place().unwrap());
            let moved = |by: usize| expected.map(|(number, place)| (number, place + by));
            let lexer = Lexer::with_settings(text, settings);
            let mut position = 0;
            let parsed = lexer.parse(&mut position);
            assert_eq!(parsed.as_ref().err().map(told), expected, "{text}, {settings:?}");
            // past the last character read
            assert_eq!(position, expected.map_or(text.len(), |(_, place)| place + 1), "{text}, {settings:?}");
            let item = lexer.iter(0).next().unwrap();
            assert_eq!(item, parsed.clone().map(Option::unwrap), "{text}, {settings:?}");
            let Listed { stop, count, position: listed } = lexer.list(0, 1, &mut [0; Lexer::RECORD]);
            let stopped = if let Stop::Error(error) = &stop { Some(told(error)) } else { None };
            assert_eq!((stopped, listed), (expected, position), "{text}, {settings:?}");
            assert_eq!(count, usize::from(expected.is_none()), "{text}, {settings:?}");
            let annotation = Lexer::with_settings(&named, settings).annotation(0);
            assert_eq!(annotation.err().as_ref().map(told), moved(1), "{named}, {settings:?}");
            // a string that is not closed takes the form's `)`
            if !text.ends_with('_') {
                let folded = Lexer::with_settings(&form, settings).fold(0);
                assert_eq!(folded.err().as_ref().map(told), moved(3), "{form}, {settings:?}");
            }
            // what lexes strictly is read as it was
            if let (true, Ok(Some(token))) = (strict, parsed) {
                let lenient = Lexer::new(text).parse(&mut 0).unwrap().unwrap();
                assert_eq!(token, lenient, "{text}");
                for reader in [Reader::Src, Reader::String] {
                    assert_eq!(token.read(text, reader), lenient.read(text, reader), "{text}, {reader:?}");
                }
                assert_eq!(token.name(text), lenient.name(text), "{text}");
                assert!(token.read(text, Reader::Src).is_ok(), "{text}");
            }
        }
    }
    let strict = Settings::new().strict_digits(true);
    let text = r#"$"\u{1_0}" "\u{1__0}" 7"#;
    let kinds: Vec<_> = Lexer::with_settings(text, strict).iter(0).map(|item| item.map(|token| token.kind)).collect();
    assert_eq!(kinds[0], Ok(TokenKind::Id));
    let error = kinds[2].clone().unwrap_err();
    assert_eq!(error.lex_error(), Some(&LexError::DoubleUnderscore));
    assert_eq!(error.to_string(), "two underscores in a row in a numeric literal at byte 17");
    assert_eq!(error.linecol_in(text), Some((0, 17)));
    // and goes on behind the underscore, with `0`
    assert!(matches!(kinds[3], Ok(TokenKind::Integer(_))));
    // the readers lex without the setting, and so have the value of what is refused with it
    let lexer = Lexer::with_settings(text, strict);
    let name = lexer.parse(&mut 0).unwrap().unwrap();
    assert_eq!(name.name(text), Ok(Name::Id("\u{10}".into())));
    let refused = Lexer::new(text).parse(&mut { 11 }).unwrap().unwrap();
    assert!(lexer.parse(&mut { 11 }).is_err());
    assert_eq!(refused.read(text, Reader::String).unwrap().unwrap()[..], [0x10]);
}

#[test]
fn nothing_panics() {
    let text = "é(;\u{202e};)\"\\u{d800}\" $\"\" 0x";
    let mut lexer = Lexer::new(text);
    for allow in [false, true] {
        lexer.allow_confusing_unicode(allow);
        for position in (0..text.len() + 3).chain([usize::MAX - 1, usize::MAX]) {
            let mut after = position;
            let parsed: Result<Option<Token>, Error> = lexer.parse(&mut after);
            let _ = (parsed, lexer.annotation(position), lexer.iter(position).take(4).count(), lexer.place(position));
            let _ = lexer.fold(position);
            for len in [0, 1, 2, u32::MAX] {
                let token = Token { kind: TokenKind::String, offset: position, len };
                let _ = (token.src(text), token.read(text, Reader::Payload));
                let _ = (token.name(text), token.id(text), token.annotation(text));
                let _ = (token.u32(text), token.u64(text), token.i32(text), token.i64(text));
            }
        }
    }
    let refused =
        |text: &str, position: usize| Lexer::new(text).parse(&mut { position }).unwrap_err().refusal().clone();
    assert_eq!(refused("é", 1), Refusal::InsideCharacter);
    assert_eq!(refused("é", 3), Refusal::PastEnd);
    assert_eq!(refused(&" ".repeat(Lexer::MAX_TEXT + 1), 0), Refusal::TooLong);
    let Err(error) = Lexer::from_bytes(b"a\xff") else { panic!() };
    assert_eq!((error.refusal().number(), error.place()), (2, Some(1)));
}

/// A token that is not there fails a debug assertion of the readers that have no error to give, and nothing else does: without
/// debug assertions they give what is empty.
#[test]
fn wrong_tokens() {
    fn given<T>(reader: impl FnOnce() -> T + std::panic::UnwindSafe) -> Option<T> {
        let given = std::panic::catch_unwind(reader).ok();
        assert_eq!(given.is_none(), cfg!(debug_assertions));
        given
    }
    let number = |text: &str| match one(text).kind {
        TokenKind::Integer(kind) => (Some(kind), None),
        TokenKind::Float(kind) => (None, Some(kind)),
        _ => (None, None),
    };
    let (Some(integer), Some(normal)) = (number("7").0, number("7.5").1) else { panic!() };
    let (Some(inf), Some(nan), Some(payload)) = (number("inf").1, number("-nan").1, number("nan:0x1").1) else {
        panic!()
    };
    let text = "é ab\"";
    for (offset, len) in [(0, 1), (1, 1), (3, 2), (5, 1), (6, 0), (9, 1), (usize::MAX, u32::MAX)] {
        let token = Token { kind: TokenKind::String, offset, len };
        if let Some(bytes) = given(|| token.string(text)) {
            assert!(bytes.is_empty());
        }
        if let Some(read) = given(|| token.integer(text, integer)) {
            assert_eq!((read.sign(), read.val()), (None, ("", 10)));
        }
        if let Some(read) = given(|| token.float(text, normal)) {
            assert_eq!(read, Float::Val { hex: false, integral: "".into(), fractional: None, exponent: None });
        }
        if let Some(read) = given(|| token.float(text, payload)) {
            assert_eq!(read, Float::Nan { val: None, negative: false });
        }
        for kind in [inf, nan] {
            let read = given(|| token.float(text, kind));
            assert!(matches!(
                read,
                None | Some(Float::Inf { negative: false } | Float::Nan { val: None, negative: true })
            ));
        }
    }
}

/// Each refusal has the number of include/thallusweb.h, and a message.
#[test]
fn refusals() {
    let utf8 = |bytes: &[u8]| Lexer::from_bytes(bytes).map(|_| ()).unwrap_err().refusal().clone();
    let lex = [
        (10, LexError::DanglingBlockComment, "unterminated block comment"),
        (11, LexError::Unexpected('\n'), "unexpected character '\\n'"),
        (12, LexError::InvalidStringElement('\u{1}'), "invalid character in string '\\u{1}'"),
        (13, LexError::InvalidStringEscape('q'), "invalid string escape 'q'"),
        (14, LexError::InvalidHexDigit('g'), "invalid hex digit 'g'"),
        (16, LexError::Expected { wanted: '{', found: 'é' }, "expected '{' but found '\\u{e9}'"),
        (17, LexError::UnexpectedEof, "unexpected end-of-file"),
        (18, LexError::NumberTooBig, "number is too big to parse"),
        (19, LexError::InvalidUnicodeValue(0xd800), "invalid unicode scalar value 0xd800"),
        (20, LexError::LoneUnderscore, "bare underscore in numeric literal"),
        (21, LexError::ConfusingUnicode('\u{202e}'), "likely-confusing unicode character found '\\u{202e}'"),
        (23, LexError::EmptyId, "empty identifier"),
        (24, LexError::EmptyAnnotation, "empty annotation id"),
        (25, LexError::DoubleUnderscore, "two underscores in a row in a numeric literal"),
    ];
    for (number, error, message) in lex {
        assert_eq!(error.to_string(), message);
        let refusal = Refusal::from(error.clone());
        assert_eq!((refusal.number(), refusal.to_string()), (number, message.to_string()));
        let whole = Error::from(refusal);
        assert_eq!((whole.lex_error(), whole.place(), whole.to_string()), (Some(&error), None, message.to_string()));
    }
    let own = [
        (1, Refusal::TooLong, "text longer than 16777216 bytes"),
        (2, utf8(b"ab\xff"), "text is not UTF-8 from byte 2 on"),
        (3, Refusal::PastEnd, "position past the end of the text"),
        (4, Refusal::InsideCharacter, "position inside a character"),
        (30, Refusal::NotThatToken, "no such token there"),
        (31, Refusal::NotThatKind, "no token of a kind that the call takes"),
        (35, Refusal::CounterFull, "line or column too large"),
        (40, Refusal::OutOfRange, "integer out of range"),
        (41, Refusal::TooDeep, "forms nested deeper than 64 levels"),
        (42, Refusal::Unclosed, "unclosed form"),
    ];
    for (number, refusal, message) in own {
        assert_eq!((refusal.number(), refusal.to_string()), (number, message.to_string()));
        assert_eq!(Error::from(refusal).lex_error(), None);
    }
}

#[test]
fn errors() {
    fn passed_on(text: &str) -> Result<(), Box<dyn std::error::Error + Send + Sync>> {
        Lexer::new(text).parse(&mut 0)?;
        Place::new().move_over(text.as_bytes())?;
        Ok(())
    }
    assert_eq!(passed_on("\"").unwrap_err().to_string(), "unexpected end-of-file at byte 1");
    assert!(passed_on("a").is_ok());
    // a reader's error stands at the token
    let text = "a\n $\"\\ff\"";
    let token = Lexer::new(text).iter(0).last().unwrap().unwrap();
    let error = token.id(text).unwrap_err();
    assert_eq!((error.place(), error.linecol_in(text)), (Some(3), Some((1, 1))));
    assert_eq!(
        format!("{:?}", error.lex_error()),
        "Some(InvalidUtf8Id(Utf8Error { valid_up_to: 0, error_len: Some(1) }))"
    );
    let wrong = token.read(text, Reader::String).unwrap_err();
    assert_eq!((wrong.refusal().number(), wrong.place(), wrong.linecol_in(text)), (31, None, None));
    // at each place, lines and columns from 0
    let text = "é\r\n\n \n\r\r\n é\r\"";
    for end in (0..=text.len()).filter(|&end| text.is_char_boundary(end)) {
        let open = format!("{}(;", &text[..end]);
        let error = Lexer::new(&open).parse(&mut { end }).unwrap_err();
        let before = text[..end].replace("\r\n", "\n").replace('\r', "\n");
        let line = before.matches('\n').count();
        let column = before.rsplit('\n').next().unwrap().len();
        assert_eq!(error.linecol_in(&open), Some((line, column)), "at {end}");
        assert_eq!(error.linecol_in(&open[..end]), Some((line, column)), "at {end}");
        assert_eq!(error.linecol_in(""), (end == 0).then_some((0, 0)), "at {end}");
    }
}

/// A kind has one number, and a number at most one kind.
#[test]
fn numbers_of_kinds() {
    let kinds: Vec<(u64, TokenKind)> =
        (0..1 << 16).filter_map(|number| TokenKind::from_number(number).map(|kind| (number, kind))).collect();
    // 10 plain ones, 12 of Integer, 2 of Inf, 2 of Nan, 4 of NanVal, 4 of Normal
    assert_eq!(kinds.len(), 34);
    for (i, (number, kind)) in kinds.iter().enumerate() {
        assert_eq!(kind.number(), *number);
        assert!(kinds[..i].iter().all(|(_, other)| other != kind));
        for more in [1 << 16, 1 << 32, 1 << 63] {
            assert_eq!(TokenKind::from_number(number + more), None);
        }
    }
    let texts =
        [(";;", 1), ("(;;)", 2), (" ", 3), ("(", 4), (")", 5), ("\"\"", 6), ("$a", 7), ("a", 8), ("@a", 9), (",", 10)];
    let numbers = [("1", 11), ("+0x1_0", 11 + 256 + 1024 + 2048), ("-1", 11 + 512), ("inf", 12), ("-nan", 13 + 512)];
    let floats = [("-nan:0x1_0", 14 + 512 + 1024), ("1.5", 15), ("0x1.8_0", 15 + 1024 + 2048)];
    for (text, number) in texts.into_iter().chain(numbers).chain(floats) {
        assert_eq!(one(text).kind.number(), number, "{text}");
        assert_eq!(TokenKind::from_number(number), Some(one(text).kind), "{text}");
    }
}

#[test]
fn listings_stop() {
    let listed = |text: &str, budget, room: usize| Lexer::new(text).list(0, budget, &mut vec![0; room * Lexer::RECORD]);
    assert_eq!(listed("a b", 2, 9), Listed { stop: Stop::Budget, count: 2, position: 2 });
    assert_eq!(listed("a b", 9, 2), Listed { stop: Stop::Full, count: 2, position: 2 });
    assert_eq!(listed("a b", 3, 3), Listed { stop: Stop::End, count: 3, position: 3 });
    let Stop::Error(error) = listed("a \"", 9, 9).stop else { panic!() };
    assert_eq!((error.refusal().number(), error.place()), (17, Some(3)));
}

/// LF, CR, and CR LF together end a line, also where the moves are cut between CR and LF, and where empty ones stand between.
#[test]
fn places() {
    let moved = |pieces: &[&str]| {
        let mut place = Place::new();
        for piece in pieces {
            place.move_over(piece.as_bytes()).unwrap();
        }
        place
    };
    let rows = [
        ("", (1, 1)),
        ("é(", (1, 4)),
        ("a\nbc", (2, 3)),
        ("a\rbc", (2, 3)),
        ("a\r\nbc", (2, 3)),
        ("a\n\nbc", (3, 3)),
        ("a\r\rbc", (3, 3)),
        ("a\r\n\r\nbc", (3, 3)),
        ("a\n\rbc", (3, 3)),
        ("a\r\r\nbc", (3, 3)),
        ("a\r\n\nbc", (3, 3)),
        // no CR LF
        ("a\rb\n", (3, 1)),
        // right behind either byte
        ("a\r", (2, 1)),
        ("a\r\n", (2, 1)),
    ];
    for (text, expected) in rows {
        let whole = moved(&[text]);
        assert_eq!((whole.line(), whole.column()), expected, "{text:?}");
        for cut in (0..=text.len()).filter(|&cut| text.is_char_boundary(cut)) {
            let (before, behind) = text.split_at(cut);
            assert_eq!(moved(&["", before, "", "", behind, ""]), whole, "{before:?} and {behind:?}");
            let mut place = Lexer::new(text).place(cut).unwrap();
            assert_eq!(place, moved(&[before]), "{before:?}");
            place.move_over(behind.as_bytes()).unwrap();
            assert_eq!(place, whole, "{before:?} and {behind:?}");
        }
    }
    assert_eq!((Place::new(), moved(&["\r\n"])), (Place::default(), moved(&["\n"])));
    // of the same line and column, but a LF leads them to other lines
    assert_ne!(moved(&["\r"]), moved(&["\n"]));
    assert_ne!(moved(&["\r", "\n"]), moved(&["\n", "\n"]));
}
