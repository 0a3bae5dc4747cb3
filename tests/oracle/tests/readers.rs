//! What the readers leave: each part of each token, whether it is a part of the text or a copy, and the errors 22 to 24.

use Part::{Absent, Copied, Refused, Text, WrongKind};
use oracle::lexer::{Lexer, SignToken};
use oracle::names::{Sort, grammar, random};
use oracle::readers::Token;
use oracle::texts::Texts;
use oracle::{Answer, Fault, Oracle};
use std::borrow::Cow;
use std::collections::BTreeMap;

/// What a reader leaves: nothing for a token that isn't of its kind (31), a part that is absent, a part of the text, a
/// copy, or an error with its number and data.
#[derive(Clone, Copy, Debug, PartialEq)]
enum Part<'a> {
    WrongKind,
    Absent,
    Text(&'a [u8]),
    Copied(&'a [u8]),
    Refused(u8, [u32; 2]),
}

#[expect(clippy::ptr_arg, reason = "whether it is borrowed is what is asked")]
fn part<'a, T: ?Sized + ToOwned + AsRef<[u8]>>(cow: &'a Cow<T>) -> Part<'a>
where
    T::Owned: AsRef<[u8]>,
{
    match cow {
        Cow::Borrowed(text) => Text(text.as_ref()),
        Cow::Owned(copy) => Copied(copy.as_ref()),
    }
}

fn name<'a>(read: &'a Option<Result<Cow<str>, Fault>>, token: &Token) -> Part<'a> {
    match read {
        None => WrongKind,
        Some(Ok(cow)) => part(cow),
        Some(Err(fault)) => {
            assert_eq!(fault.place, token.offset(), "an error of a reader stands at the token's offset");
            Refused(fault.number, fault.data)
        }
    }
}

fn optional<'a>(read: &'a Option<Cow<str>>) -> Part<'a> {
    read.as_ref().map_or(Absent, part)
}

/// The token that is all of the text from a position on.
fn token(oracle: &Oracle, position: usize) -> Token {
    match oracle.parse(position) {
        (Answer::Token(token), after) if after == oracle.text().len() => token,
        answer => panic!("{:?} at {position} is no token but {answer:?}", oracle.text()),
    }
}

#[test]
fn strings() {
    let rows: &[(&str, Part)] = &[
        (r#""""#, Text(b"")),
        (r#""a""#, Text(b"a")),
        (r#""é;;""#, Text("é;;".as_bytes())),
        (r#""\u{1__0}""#, Copied(b"\x10")),
        (r#""\u{41}""#, Copied(b"A")),
        (r#""\bf\Fb""#, Copied(b"\xbf\xfb")),
        (r#""a\t\n\r\"\'\\é""#, Copied("a\t\n\r\"'\\é".as_bytes())),
        (r#""\u{7f}\u{80}\u{7ff}\u{800}""#, Copied("\u{7f}\u{80}\u{7ff}\u{800}".as_bytes())),
        (r#""\u{ffff}\u{10000}\u{10FFFF}\u{202e}""#, Copied("\u{ffff}\u{10000}\u{10ffff}\u{202e}".as_bytes())),
        (r#""\\""#, Copied(b"\\")),
        ("1", WrongKind),
        (r#"$"a""#, WrongKind),
    ];
    for (text, expected) in rows {
        let oracle = Oracle::new(text, false);
        let read = oracle.string(&token(&oracle, 0));
        assert_eq!(read.as_ref().map_or(WrongKind, part), *expected, "{text:?}");
    }
    // a string that was lexed with the flag on is read as it stands
    let oracle = Oracle::new("\"\u{202e}\"", true);
    assert_eq!(part(&oracle.string(&token(&oracle, 0)).unwrap()), Text("\u{202e}".as_bytes()));
}

#[test]
fn names() {
    let rows: &[(&str, Part)] = &[
        ("a", Text(b"a")),
        ("$@", Text(b"$@")),
        (r#""a b""#, Text(b"a b")),
        (r#""\61""#, Copied(b"a")),
        (r#""\u{e9}""#, Copied("é".as_bytes())),
        (r#""\c3\a9""#, Copied("é".as_bytes())),
        (r#""\ff""#, Refused(22, [0, 1])),
        (r#""\c3""#, Refused(22, [0, 0])),
        (r#""a\ff""#, Refused(22, [1, 1])),
        (r#""\e2\80\ffa""#, Refused(22, [0, 2])),
        (r#""\f0\9f\98 ""#, Refused(22, [0, 3])),
    ];
    for (name_part, expected) in rows {
        for position in [0, 3] {
            for (sigil, kind) in [('$', 7), ('@', 9)] {
                let text = format!("{}{sigil}{name_part}", &"é "[..position]);
                let oracle = Oracle::new(&text, false);
                let token = token(&oracle, position);
                assert_eq!(token.kind(), kind, "{text:?}");
                assert_eq!(name(&oracle.name(&token), &token), *expected, "{text:?}");
            }
        }
    }
    for (text, number) in [("$", 23), (r#"$"""#, 23), ("@", 24), (r#"@"""#, 24)] {
        let oracle = Oracle::new(text, false);
        let token = token(&oracle, 0);
        assert_eq!(name(&oracle.name(&token), &token), Refused(number, [0, 0]), "{text:?}");
    }
    for text in ["(;;)", ";;", " ", "(", ")", "a", "A", r#""a""#, "1", "1.5", r#"$$"a""#] {
        let oracle = Oracle::new(text, false);
        let token = token(&oracle, 0);
        assert_eq!(name(&oracle.name(&token), &token), WrongKind, "{text:?}");
    }
}

#[test]
fn integers() {
    use SignToken::{Minus, Plus};
    let rows: &[(&str, Option<SignToken>, Part)] = &[
        ("0", None, Text(b"0")),
        ("+10", Some(Plus), Text(b"10")),
        ("-10", Some(Minus), Text(b"-10")),
        ("1_0_0", None, Copied(b"100")),
        ("+1_0", Some(Plus), Copied(b"10")),
        ("-1_0", Some(Minus), Copied(b"-10")),
        ("0x1e5", None, Copied(b"1e5")),
        ("+0x1F", Some(Plus), Copied(b"1F")),
        ("-0x1_0", Some(Minus), Copied(b"-10")),
        ("-0x00", Some(Minus), Copied(b"-00")),
    ];
    for (text, sign, digits) in rows {
        let oracle = Oracle::new(text, false);
        let token = token(&oracle, 0);
        let integer = oracle.integer(&token).unwrap();
        assert_eq!((integer.sign, part(&integer.digits)), (*sign, *digits), "{text:?}");
        assert_eq!(oracle.float(&token), None, "{text:?}");
    }
}

#[test]
fn floats() {
    // negative; integral, fraction, exponent, payload
    let rows: &[(&str, Option<bool>, [Part; 4])] = &[
        ("1.", None, [Text(b"1"), Absent, Absent, Absent]),
        ("1.e5", None, [Text(b"1"), Absent, Text(b"5"), Absent]),
        ("1e+5", None, [Text(b"1"), Absent, Text(b"5"), Absent]),
        ("-1.5E-6", None, [Text(b"-1"), Text(b"5"), Text(b"-6"), Absent]),
        ("+1.5e+0", None, [Text(b"1"), Text(b"5"), Text(b"0"), Absent]),
        ("1.5e6_0", None, [Copied(b"1"), Copied(b"5"), Copied(b"60"), Absent]),
        ("1_0.", None, [Copied(b"10"), Absent, Absent, Absent]),
        ("0x1.8p+3", None, [Copied(b"1"), Text(b"8"), Text(b"3"), Absent]),
        ("-0x1.8P-3", None, [Copied(b"-1"), Text(b"8"), Text(b"-3"), Absent]),
        ("+0x1_0.e_ep1_0", None, [Copied(b"10"), Copied(b"ee"), Copied(b"10"), Absent]),
        ("0x1p3", None, [Copied(b"1"), Absent, Text(b"3"), Absent]),
        ("inf", Some(false), [Absent, Absent, Absent, Absent]),
        ("+inf", Some(false), [Absent, Absent, Absent, Absent]),
        ("-inf", Some(true), [Absent, Absent, Absent, Absent]),
        ("nan", Some(false), [Absent, Absent, Absent, Absent]),
        ("-nan", Some(true), [Absent, Absent, Absent, Absent]),
        ("nan:0x1F", Some(false), [Absent, Absent, Absent, Text(b"1F")]),
        ("+nan:0x1", Some(false), [Absent, Absent, Absent, Text(b"1")]),
        ("-nan:0x1_0", Some(true), [Absent, Absent, Absent, Copied(b"10")]),
    ];
    for (text, negative, parts) in rows {
        let oracle = Oracle::new(text, false);
        let token = token(&oracle, 0);
        let float = oracle.float(&token).unwrap();
        let read = [&float.integral, &float.fraction, &float.exponent, &float.payload].map(optional);
        assert_eq!((float.negative, &read), (*negative, parts), "{text:?}");
        assert_eq!(oracle.integer(&token), None, "{text:?}");
    }
}

#[test]
fn tokens_of_other_kinds_have_no_such_parts() {
    for text in ["(;;)", ";;", " ", "(", ")", "a", "A", r#""a""#, "$a", "@a"] {
        let oracle = Oracle::new(text, false);
        let token = token(&oracle, 0);
        assert_eq!((oracle.integer(&token), oracle.float(&token)), (None, None), "{text:?}");
        assert_eq!(oracle.src(&token), text);
    }
}

#[test]
fn keyword_and_reserved_are_src() {
    for text in ["abc", "ABC", r#"a"\41""#] {
        let token = Lexer::new(text).parse(&mut 0).unwrap().unwrap();
        assert_eq!([token.keyword(text), token.reserved(text)], [token.src(text); 2]);
    }
}

/// That names of each sort were met, of ids and of annotations, and more than so many of each.
fn assert_each_sort(names: &BTreeMap<(u16, Option<Sort>), u32>, most: u32) {
    assert!(names.len() == 2 * Sort::ALL.len() && names.values().all(|count| *count > most), "{names:?}");
}

#[test]
fn random_names() {
    let mut chance = Texts::new(3);
    let (mut names, mut longest) = (BTreeMap::new(), 0);
    for _ in 0..20_000 {
        let text = random(&mut chance);
        let oracle = Oracle::new(&text, true);
        if let (Answer::Token(token), _) = oracle.parse(0)
            && let Some(sort) = Sort::of(&oracle, &token)
        {
            *names.entry((token.kind(), Some(sort))).or_default() += 1;
            longest = longest.max(token.len());
        }
    }
    assert_each_sort(&names, 1_000);
    assert!(longest > 300, "{longest}");
}

/// The names of the small grammar, those of them that are one token: of each sort too.
#[test]
fn names_of_the_grammar() {
    let mut names = BTreeMap::new();
    grammar(2, &mut |text| {
        let oracle = Oracle::new(text, true);
        if let (Answer::Token(token), after) = oracle.parse(0)
            && after == text.len()
            && let Some(sort) = Sort::of(&oracle, &token)
        {
            *names.entry((token.kind(), Some(sort))).or_default() += 1;
        }
    });
    assert_each_sort(&names, 0);
}

/// Where a part of the text starts.
fn start(text: &str, part: &[u8]) -> usize {
    part.as_ptr().addr() - text.as_ptr().addr()
}

#[test]
fn on_random_texts() {
    let mut texts = Texts::new(2);
    let mut names = BTreeMap::<_, u32>::new();
    for _ in 0..200_000 {
        let text = texts.text(40);
        let oracle = Oracle::new(&text, true);
        let (Answer::Token(token), after) = oracle.parse(0) else {
            continue;
        };
        let src = oracle.src(&token);
        assert_eq!(src, &text[..after]);

        // a string is copied if it has an escape; a part of the text starts after the quote
        if let Some(string) = oracle.string(&token) {
            assert_eq!(matches!(string, Cow::Owned(_)), src.contains('\\'), "{src:?}");
            if let Cow::Borrowed(bytes) = string {
                assert_eq!(start(&text, bytes), 1, "{src:?}");
            }
        }

        // 22 needs a copy, 23 and 24 none; a part of the text starts after `$` or `@` and a quote
        if let Some(read) = oracle.name(&token) {
            *names.entry((token.kind(), Sort::of(&oracle, &token))).or_default() += 1;
            let quoted = src[1..].starts_with('"');
            match read {
                Ok(Cow::Borrowed(name)) => {
                    assert_eq!(start(&text, name.as_bytes()), 1 + usize::from(quoted), "{src:?}")
                }
                Ok(Cow::Owned(_)) | Err(Fault { number: 22, .. }) => assert!(quoted && src.contains('\\'), "{src:?}"),
                Err(_) => assert!(!src.contains('\\') && src.len() <= 3, "{src:?}"),
            }
        }

        // the readers leave no `+`, underscore or `0x`, and `-` only in front
        if let Some(integer) = oracle.integer(&token) {
            let copied = matches!(integer.digits, Cow::Owned(_));
            assert_eq!(copied, src.contains('_') || src.contains("0x"), "{src:?}");
            assert_eq!(*integer.digits, src.trim_start_matches('+').replace('_', "").replace("0x", ""), "{src:?}");
        }
    }
    assert_each_sort(&names, 100);
}
