//! The Rust bindings beside the original: the same text asked of both, in every way that the bindings have, with all settings. What
//! docs/RULES.md adds to the Rust is expected by its rule, as `compare.rs` and `reading.rs` expect it of the C calls.

use crate::compare::{self, CANARY, MARGIN, Refusals, shown};
use crate::forms;
use crate::integers;
use crate::names;
use crate::ours::{self as c, Found, Listed, Reading, Refused, Words};
use crate::{places, reading};
use oracle::lexer as wast;
use oracle::listing::RECORD;
use oracle::texts::Texts;
use oracle::token::Span;
use oracle::values;
use oracle::{Answer, Oracle, Settings as Asking};
use std::borrow::Cow;
use thallusweb::lexer::{self as ours, LexError, Name, Reader};
use thallusweb::{Error, Place, Refusal, Settings};

/// How many tokens and errors of one text are asked for: `iter` may repeat an error for ever.
const MOST: usize = 64;

/// The calls that lex.
#[derive(Clone, Copy)]
enum Call {
    Parse,
    Annotation,
    Iter,
    List,
    Fold,
}

/// Their names, and how often each refusal was the answer of one.
pub const CALLS: [&str; 5] = ["parse", "annotation", "iter", "list", "fold"];
type Met = [Refusals; CALLS.len()];

/// 25 is ours, and so is its message.
const DOUBLE: &str = "two underscores in a row in a numeric literal";

/// The settings of the readers.
const READERS_LEX_WITH: Asking = Asking { allow_confusing: true, strict_digits: false };

/// The readers, in the order of their numbers.
const READERS: [Reader; values::READERS.len()] = [
    Reader::Src,
    Reader::String,
    Reader::Integer,
    Reader::Integral,
    Reader::Fraction,
    Reader::Exponent,
    Reader::Payload,
];

/// A text, the settings with which it is lexed, and the bindings' lexer for both.
#[derive(Clone, Copy)]
struct Asked<'a> {
    text: &'a str,
    settings: Asking,
    lexer: ours::Lexer<'a>,
}

/// The numbers of a refusal, as the C calls give them.
fn refused(error: &Error) -> Refused {
    let lengths = |error: &ours::Utf8Error| [error.valid_up_to() as u64, error.error_len().unwrap_or(0) as u64];
    let (number, values) = match *error.refusal() {
        Refusal::TooLong => (1, [0, 0]),
        Refusal::NotUtf8(ref error) => (2, lengths(error)),
        Refusal::PastEnd => (3, [0, 0]),
        Refusal::InsideCharacter => (4, [0, 0]),
        Refusal::Lex(LexError::DanglingBlockComment) => (10, [0, 0]),
        Refusal::Lex(LexError::Unexpected(c)) => (11, [c.into(), 0]),
        Refusal::Lex(LexError::InvalidStringElement(c)) => (12, [c.into(), 0]),
        Refusal::Lex(LexError::InvalidStringEscape(c)) => (13, [c.into(), 0]),
        Refusal::Lex(LexError::InvalidHexDigit(c)) => (14, [c.into(), 0]),
        Refusal::Lex(LexError::Expected { wanted, found }) => (16, [wanted.into(), found.into()]),
        Refusal::Lex(LexError::UnexpectedEof) => (17, [0, 0]),
        Refusal::Lex(LexError::NumberTooBig) => (18, [0, 0]),
        Refusal::Lex(LexError::InvalidUnicodeValue(n)) => (19, [n.into(), 0]),
        Refusal::Lex(LexError::LoneUnderscore) => (20, [0, 0]),
        Refusal::Lex(LexError::ConfusingUnicode(c)) => (21, [c.into(), 0]),
        Refusal::Lex(LexError::InvalidUtf8Id(ref error)) => (22, lengths(error)),
        Refusal::Lex(LexError::EmptyId) => (23, [0, 0]),
        Refusal::Lex(LexError::EmptyAnnotation) => (24, [0, 0]),
        Refusal::Lex(LexError::DoubleUnderscore) => (25, [0, 0]),
        Refusal::NotThatToken => (30, [0, 0]),
        Refusal::NotThatKind => (31, [0, 0]),
        Refusal::OutOfRange => (40, [0, 0]),
        Refusal::TooDeep => (41, [0, 0]),
        Refusal::Unclosed => (42, [0, 0]),
        ref other => panic!("bindings: {other:?} from a text"),
    };
    assert_eq!(error.refusal().number(), number, "bindings, the number of {error:?}");
    assert_eq!(error.place().is_none(), (30..=40).contains(&number), "bindings, whether {error:?} stands somewhere");
    let message = error.message();
    if (10..30).contains(&number) {
        let wast = oracle::numbers::message(number as u8, values.map(|value| value as u32));
        let expected = if number == 25 { Some(DOUBLE.to_string()) } else { wast };
        assert_eq!(Some(&message), expected.as_ref(), "bindings, the message of {error:?}");
        assert_eq!(error.lex_error().map(ToString::to_string), expected, "bindings, the lexing error of {error:?}");
    } else {
        assert_eq!(error.lex_error(), None, "bindings, the lexing error of {error:?}");
    }
    let shown = error.place().map_or(message.clone(), |place| format!("{message} at byte {place}"));
    assert_eq!(error.to_string(), shown, "bindings, how {error:?} is shown");
    Refused { number, values, place: error.place().unwrap_or(0) as u64 }
}

fn found(found: Result<Option<ours::Token>, Error>) -> Found {
    match found {
        Ok(None) => Found::Nothing,
        Ok(Some(token)) => {
            let kind = token.kind.number();
            assert_eq!(ours::TokenKind::from_number(kind), Some(token.kind), "bindings, the kind with a number");
            Found::Token { kind, offset: token.offset as u64, len: token.len.into() }
        }
        Err(error) => Found::Refused(refused(&error)),
    }
}

/// Counts the refusal of a call, if it is one.
fn tally(met: &mut Met, call: Call, refused: Option<Refused>) {
    if let Some(refused) = refused {
        *met[call as usize].entry(refused.number).or_default() += 1;
    }
}

/// Lexers of a text with settings: set on, built with, and turned round twice.
fn lexers(text: &str, settings: Asking) -> [ours::Lexer<'_>; 3] {
    let Asking { allow_confusing, strict_digits } = settings;
    let mut set = ours::Lexer::new(text);
    set.allow_confusing_unicode(allow_confusing).strict_digits(strict_digits);
    let built = Settings::new().strict_digits(strict_digits).allow_confusing_unicode(allow_confusing);
    let built = ours::Lexer::with_settings(text, built);
    let mut turned = built;
    turned.allow_confusing_unicode(!allow_confusing).strict_digits(!strict_digits);
    turned.allow_confusing_unicode(allow_confusing).strict_digits(strict_digits);
    [set, built, turned]
}

/// The value of a token in both widths, unsigned and signed: the words that the C calls are held to. Answers how many answers there were.
pub fn values(text: &str, token: Words) -> u64 {
    let [word_32, word_64] = integers::expected(text.as_bytes(), token);
    let [kind, offset, len] = token;
    let kind = ours::TokenKind::from_number(kind).expect("a kind");
    let of = ours::Token { kind, offset: offset as usize, len: len as u32 };
    let asked = || format!("bindings, the value of {token:?} in {}", shown(text.as_bytes()));
    let word = |value: Result<i128, Error>, bits: u32| match value {
        Ok(value) => Ok(value.rem_euclid(1 << bits) as u64),
        Err(error) => Err(refused(&error)),
    };
    assert_eq!(of.u32(text).map(u64::from).map_err(|error| refused(&error)), word_32, "{}", asked());
    assert_eq!(of.u64(text).map_err(|error| refused(&error)), word_64, "{}", asked());
    assert_eq!(word(of.i32(text).map(i128::from), 32), word_32, "{}", asked());
    assert_eq!(word(of.i64(text).map(i128::from), 64), word_64, "{}", asked());
    4
}

/// What a reader's two calls would have to say of what the bindings read in a text: copies are those of a buffer that was filled.
fn reading(text: &[u8], buffer: &[u8], read: Result<Option<Cow<[u8]>>, Error>) -> Reading {
    match read {
        Ok(None) => Reading::Absent,
        Ok(Some(Cow::Borrowed(part))) => {
            let start = part.as_ptr().addr().wrapping_sub(text.as_ptr().addr());
            Reading::Text { start: start as u64, len: part.len() as u64 }
        }
        Ok(Some(Cow::Owned(copy))) => {
            assert_eq!(Some(&copy[..]), buffer.get(..copy.len()), "bindings, a copy of {}", shown(text));
            Reading::Buffer { start: 0, len: copy.len() as u64 }
        }
        Err(error) => Reading::Refused(refused(&error)),
    }
}

fn into_bytes(text: Cow<str>) -> Cow<[u8]> {
    match text {
        Cow::Borrowed(part) => Cow::Borrowed(part.as_bytes()),
        Cow::Owned(copy) => Cow::Owned(copy.into_bytes()),
    }
}

/// The name of a token of any kind, by the one call, which the C call is held to, and by wast's two, which refuse by 31 what is there and
/// of another kind than theirs. Answers how many answers there were.
pub fn names(text: &str, token: Words) -> u64 {
    let [kind, offset, len] = token;
    let of = ours::Token {
        kind: ours::TokenKind::from_number(kind).expect("a kind"),
        offset: offset as usize,
        len: len as u32,
    };
    let asked = || format!("bindings, the name of {token:?} in {}", shown(text.as_bytes()));
    let mut buffer = vec![CANARY; len as usize];
    let expected = names::expected(text.as_bytes(), token, &mut buffer);
    let told =
        |name: Result<Cow<str>, Error>| reading(text.as_bytes(), &buffer, name.map(|name| Some(into_bytes(name))));
    let name = of.name(text);
    let whose = match &name {
        Ok(Name::Id(_)) => c::c::KIND_ID,
        Ok(Name::Annotation(_)) => c::c::KIND_ANNOTATION,
        Err(_) => 0,
    };
    if let Ok(name) = &name {
        assert_eq!(name.as_str(), name.clone().into_text(), "{}", asked());
    }
    assert_eq!((told(name.map(Name::into_text)), whose), expected, "{}", asked());
    let wrong = reading::there(text.as_bytes(), token).err().unwrap_or(reading::nowhere(31));
    for (takes, name) in [(c::c::KIND_ID, of.id(text)), (c::c::KIND_ANNOTATION, of.annotation(text))] {
        let expected = if takes == kind { expected.0 } else { Reading::Refused(wrong) };
        assert_eq!(told(name), expected, "{}, as one of {takes}", asked());
    }
    3
}

/// A counter that was moved over some bytes.
fn place(bytes: &[u8]) -> Place {
    let mut place = Place::new();
    place.move_over(bytes).expect("a short text");
    place
}

/// A counter moved over some bytes piece by piece: its line and column; that it equals the one that was moved at once; and that it equals
/// one that other bytes led to the same line and column just where no CR was passed last. Answers how many answers there were.
pub fn moves(pieces: &[&[u8]]) -> u64 {
    let (mut moved, mut bytes) = (Place::new(), Vec::new());
    for piece in pieces {
        moved.move_over(piece).expect("a short text");
        bytes.extend_from_slice(piece);
    }
    let asked = || format!("bindings, a place, over {}", shown(&bytes));
    let [line, column, after_cr] = places::expected([1, 1, 0], &bytes).expect("a short text");
    assert_eq!([moved.line(), moved.column()], [line, column], "{}", asked());
    assert_eq!(moved, place(&bytes), "{}", asked());
    let alone = "\n".repeat(line as usize - 1) + &"a".repeat(column as usize - 1);
    assert_eq!(moved == place(alone.as_bytes()), after_cr == 0, "{}", asked());
    3
}

/// The ends of forms at some positions. Answers how many answers there were.
pub fn folds(text: &str, settings: Asking, positions: impl Iterator<Item = usize>, met: &mut Met) -> u64 {
    let asked = Asked { text, settings, lexer: lexers(text, settings)[0] };
    positions.map(|position| asked.fold(position, met)).sum()
}

impl Asked<'_> {
    fn of(&self, what: &str) -> String {
        format!("bindings, {what} of {}, {:?}", shown(self.text.as_bytes()), self.settings)
    }

    /// As both print it.
    fn same(&self, what: &str, ours: impl std::fmt::Debug, wast: impl std::fmt::Debug) {
        assert_eq!(format!("{ours:?}"), format!("{wast:?}"), "{}", self.of(what));
    }

    fn name(&self, ours: Result<Cow<str>, Error>, wast: Result<Cow<str>, oracle::Error>) {
        let wast = wast.map_err(|error| compare::passed_on(error.into()));
        self.same("the name", ours.map_err(|error| refused(&error)), wast);
    }

    /// A token's value, under the names of wast.
    fn value(&self, token: &ours::Token, original: &wast::Token) {
        let text = self.text;
        self.same("a token", token, original);
        self.same("src", token.src(text), original.src(text));
        match (token.kind, original.kind) {
            (ours::TokenKind::String, _) => self.same("string", token.string(text), original.string(text)),
            (ours::TokenKind::Id, _) => self.name(token.id(text), original.id(text)),
            (ours::TokenKind::Annotation, _) => self.name(token.annotation(text), original.annotation(text)),
            (ours::TokenKind::Keyword, _) => self.same("keyword", token.keyword(text), original.keyword(text)),
            (ours::TokenKind::Reserved, _) => self.same("reserved", token.reserved(text), original.reserved(text)),
            (ours::TokenKind::Integer(kind), wast::TokenKind::Integer(of)) => {
                let (integer, original) = (token.integer(text, kind), original.integer(text, of));
                self.same("integer", (integer.sign(), integer.val()), (original.sign(), original.val()));
                self.same("integer", integer, original);
            }
            (ours::TokenKind::Float(kind), wast::TokenKind::Float(of)) => {
                self.same("float", token.float(text, kind), original.float(text, of));
            }
            _ => {}
        }
    }

    /// Every reader of a token that is there, and of the same bytes under another kind, the name and the value.
    fn readings(&self, token: ours::Token) -> u64 {
        let text = self.text.as_bytes();
        let other = if token.kind == ours::TokenKind::String { ours::TokenKind::Id } else { ours::TokenKind::String };
        let mut count = 0;
        for token in [token, ours::Token { kind: other, ..token }] {
            let words = [token.kind.number(), token.offset as u64, token.len.into()];
            count += values(self.text, words) + names(self.text, words);
            for (number, reader) in values::READERS.into_iter().zip(READERS) {
                count += 1;
                let mut buffer = vec![CANARY; token.len as usize];
                let expected = reading::expected_reading(text, number as u64, words, &mut buffer);
                let answer = reading(text, &buffer, token.read(self.text, reader));
                assert_eq!(answer, expected, "{} {token:?}, {reader:?}", self.of("the reading"));
            }
        }
        count
    }

    /// The original's `iter` from a start on; with strict digits, which it does not have, the model's tokens one after the other.
    fn originals(&self, start: usize) -> Vec<Result<wast::Token, Refused>> {
        if !self.settings.strict_digits {
            let mut original = wast::Lexer::new(self.text);
            original.allow_confusing_unicode(self.settings.allow_confusing);
            let items = original.iter(start).take(MOST);
            return items.map(|item| item.map_err(|error| compare::passed_on(error.into()))).collect();
        }
        let oracle = Oracle::with_settings(self.text, self.settings);
        let mut position = start;
        let next = || {
            let (answer, after) = oracle.parse(position);
            position = after;
            match answer {
                Answer::End => None,
                Answer::Token(token) => Some(Ok(token.0)),
                Answer::Fault(fault) => Some(Err(compare::passed_on(fault))),
            }
        };
        std::iter::from_fn(next).take(MOST).collect()
    }

    /// `iter` from a start on, item by item, with the values of its tokens.
    fn items(&self, start: usize, met: &mut Met) -> u64 {
        let mut items = self.lexer.iter(start).take(MOST);
        let mut originals = self.originals(start).into_iter();
        let mut count = 0;
        loop {
            match (items.next(), originals.next()) {
                (None, None) => return count,
                (Some(Ok(token)), Some(Ok(original))) => self.value(&token, &original),
                (Some(Err(error)), Some(Err(original))) => {
                    self.same("an error", refused(&error), original);
                    tally(met, Call::Iter, Some(original));
                }
                (found, original) => panic!("{found:?} beside {original:?}, {}", self.of("an item")),
            }
            count += 1;
        }
    }

    /// The end of the form at a position.
    fn fold(&self, position: usize, met: &mut Met) -> u64 {
        let folded = self.lexer.fold(position).map(|end| end as u64).map_err(|error| refused(&error));
        let expected = forms::expected(self.text.as_bytes(), self.settings, position);
        assert_eq!(folded, expected, "{} at {position}", self.of("the form's end"));
        tally(met, Call::Fold, expected.err());
        1
    }

    /// One token, the annotation, the place and the form's end at a position, and every reader of the token.
    fn position(&self, position: usize, met: &mut Met) -> u64 {
        let text = self.text.as_bytes();
        let at = || format!("{} at {position}", self.of("one token, annotation or place"));
        let mut after = position;
        let parsed = self.lexer.parse(&mut after);
        let readings = match &parsed {
            // what lexes with any settings is this token with these
            Ok(Some(token)) if self.settings == READERS_LEX_WITH => self.readings(*token),
            Err(error) => {
                let before = error.place().and_then(|place| text.get(..place));
                let place = before.and_then(|before| places::expected([1, 1, 0], before));
                let expected = place.map(|[line, column, _]| (line as usize - 1, column as usize - 1));
                assert_eq!(error.linecol_in(self.text), expected, "{}", at());
                // the original's lines end at LF alone
                let bare = text.split(|&byte| byte == b'\r').skip(1).any(|behind| !behind.starts_with(b"\n"));
                if let Some(before) = before.filter(|before| !bare && !before.ends_with(b"\r")) {
                    let original = Span::from_offset(before.len()).linecol_in(self.text);
                    assert_eq!(expected, Some(original), "{}, with no bare CR", at());
                }
                1
            }
            _ => 0,
        };
        let expected = compare::expected_token(text, self.settings, position);
        assert_eq!((found(parsed), after as u64), expected, "{}", at());
        tally(met, Call::Parse, expected.0.refused());
        if let Found::Refused(Refused { number: 3 | 4, .. }) = expected.0 {
            let item = self.lexer.iter(position).next();
            assert_eq!(item.map(|item| found(item.map(Some))), Some(expected.0), "{}", at());
        }
        let annotation = compare::expected_annotation(text, self.settings, position);
        assert_eq!(found(self.lexer.annotation(position)), annotation, "{}", at());
        tally(met, Call::Annotation, annotation.refused());
        let counted = self.lexer.place(position);
        if let Ok(mut counter) = counted.clone() {
            counter.move_over(&text[position..]).expect("a short text");
            assert_eq!(counter, place(text), "{}, moved on", at());
        }
        let expected = match text.get(..position) {
            Some(before) => Ok(places::expected([1, 1, 0], before).expect("a short text")),
            None => Err(Refused { number: 3, values: [0, 0], place: position as u64 }),
        };
        let counted = counted.map(|place| [place.line(), place.column()]).map_err(|error| refused(&error));
        assert_eq!(counted, expected.map(|[line, column, _]| [line, column]), "{}", at());
        readings + 3 + self.fold(position, met)
    }

    /// A listing: its report, every byte of the list, and the bytes around it.
    fn listing(&self, start: usize, budget: usize, room: usize, met: &mut Met) -> u64 {
        let mut expected_list = vec![CANARY; room + 2 * MARGIN];
        let mut list = expected_list.clone();
        let middle = MARGIN..MARGIN + room;
        let text = self.text.as_bytes();
        let list_there = &mut expected_list[middle.clone()];
        let expected = compare::expected_listing(text, self.settings, start, budget, list_there);
        let listed = self.lexer.list(start, budget, &mut list[middle]);
        let stop = match &listed.stop {
            ours::Stop::End => c::Stop::End,
            ours::Stop::Budget => c::Stop::Budget,
            ours::Stop::Error(error) => c::Stop::Refused(refused(error)),
            ours::Stop::Full => c::Stop::Full,
        };
        let listed = Listed { stop, count: listed.count as u64, position: listed.position as u64 };
        let asked = || format!("{} from {start}, budget {budget}, room {room}", self.of("the listing"));
        assert_eq!(listed, expected, "{}", asked());
        assert!(list == expected_list, "bytes of the list, {}", asked());
        if let c::Stop::Refused(refused) = expected.stop {
            tally(met, Call::List, Some(refused));
        }
        1
    }
}

/// Compares all that can be asked of a text; answers how many answers there were. `number` is the text's own.
pub fn text(text: &str, number: u64, met: &mut Met) -> u64 {
    let mut chance = Texts::new(number);
    let mut count = 0;
    for &settings in compare::asked(text.as_bytes(), number) {
        let [lexer, others @ ..] = lexers(text, settings);
        for other in others {
            assert_eq!((other.settings(), other.input()), (lexer.settings(), text), "bindings, of lexers");
        }
        let told = (lexer.settings().allows_confusing_unicode(), lexer.settings().has_strict_digits());
        assert_eq!(told, (settings.allow_confusing, settings.strict_digits), "bindings, of settings");
        let asked = Asked { text, settings, lexer: [lexer, others[0], others[1]][chance.below(3)] };
        count += asked.items(0, met) + asked.items(chance.boundary(text), met);
        for position in (0..text.len() + 3).chain([usize::MAX]) {
            count += asked.position(position, met);
        }
        count += asked.listing(0, usize::MAX, RECORD * text.len(), met);
        count += asked.listing(chance.below(text.len() + 2), chance.below(5), chance.below(4 * RECORD), met);
        count += asked.listing(chance.boundary(text), chance.below(3), 4 * RECORD, met);
        count += asked.listing(chance.boundary(text), usize::MAX, chance.below(3 * RECORD), met);
    }
    count + moves(&[text.as_bytes()]) + bytes(text.as_bytes())
}

/// Compares what is said of bytes that need not be a text.
pub fn bytes(bytes: &[u8]) -> u64 {
    let expected = std::str::from_utf8(bytes);
    let numbers = |error: &ours::Utf8Error| (error.valid_up_to(), error.error_len(), error.to_string());
    let original = expected.map(|_| ()).map_err(|error| (error.valid_up_to(), error.error_len(), error.to_string()));
    let checked = ours::check_utf8(bytes);
    assert_eq!(checked.map_err(|error| numbers(&error)), original, "bindings, check_utf8 of {}", shown(bytes));
    assert_eq!(checked, expected.map(|_| ()).map_err(ours::Utf8Error::from), "bindings, an error of {}", shown(bytes));
    let lexer = ours::Lexer::from_bytes(bytes).map_err(|error| refused(&error));
    let lexer = lexer.map(|lexer| (lexer.input(), lexer.settings()));
    let expected = compare::turned(bytes, 0).map(|text| (text, Settings::new()));
    assert_eq!(lexer, expected, "bindings, from_bytes of {}", shown(bytes));
    2
}

/// 1, for a text over the limit, and the longest text.
pub fn limits() {
    let mut text = " ".repeat(16_777_217);
    let long = Refused { number: 1, values: [0, 0], place: 3 };
    let from_bytes = |text: &str| ours::Lexer::from_bytes(text.as_bytes()).map_err(|error| refused(&error)).map(|_| ());
    for lexer in lexers(&text, Asking { allow_confusing: true, strict_digits: true }) {
        let mut position = 3;
        assert_eq!((found(lexer.parse(&mut position)), position), (Found::Refused(long), 3));
        assert_eq!(found(lexer.annotation(3)), Found::Refused(long));
        assert_eq!(lexer.fold(3).map_err(|error| refused(&error)), Err(long));
        assert_eq!(lexer.iter(3).next().map(|item| found(item.map(Some))), Some(Found::Refused(long)));
        let listed = lexer.list(3, 9, &mut [0; 12]);
        let ours::Stop::Error(error) = &listed.stop else { panic!("bindings: {listed:?}") };
        assert_eq!((refused(error), listed.count, listed.position), (long, 0, 3));
    }
    assert_eq!(from_bytes(&text), Err(Refused { place: 0, ..long }));
    text.pop();
    assert_eq!(from_bytes(&text), Ok(()));
    for lexer in lexers(&text, Asking::default()) {
        let all = Found::Token { kind: 3, offset: 0, len: 16_777_216 };
        let mut position = 0;
        assert_eq!((found(lexer.parse(&mut position)), position), (all, 16_777_216));
        assert_eq!(lexer.iter(0).map(|item| found(item.map(Some))).collect::<Vec<_>>(), [all]);
    }
}
