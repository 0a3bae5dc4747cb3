//! Thallusweb against the Rust original, call by call: see `HELP`. Any difference is a panic that names the text.

mod bindings;
mod compare;
mod escapes;
mod forms;
mod header;
mod integers;
mod names;
mod ours;
mod places;
mod reading;

use compare::Counts;
use oracle::Settings;
use oracle::names::Sort;
use oracle::texts::{Texts, every};
use std::process::ExitCode;
use std::sync::atomic::{AtomicU64, Ordering};
use std::thread;
use std::time::Instant;

const HELP: &str = "\
differential: Thallusweb against the Rust original

  differential [--bytes N] [--symbols N] [--random N] [--seed S]
      --bytes N     every byte string of up to N bytes (default 2)
      --symbols N   every text of up to N symbols of a telling alphabet, every name and every literal of an integer of
                    up to N parts, every escape \\u{..} of up to N + 1 parts, every nest of forms of up to N + 2
                    symbols, and every string of up to N + 3 bytes that are a CR, a LF or another (default 4)
      --random N    so many random texts, whole, cut and damaged, random byte strings, names, literals of integers, and
                    byte strings with line ends, and a fifth as many nests of forms (default 100000)
      --seed S      of the random texts (default 1)
";

/// Symbols that the rules tell apart: one to each class, and the marks of strings, comments and numbers.
const TELLING: [&str; 30] = [
    "(", ")", ";", "\"", "\\", "u", "{", "}", "0", "1", "x", "a", "f", "d", "8", "e", ".", "_", "+", "-", "n", "$",
    "@", ",", " ", "\n", "\r", "é", "\u{202e}", "\u{1}",
];

/// The bindings are asked for texts of at most so many of these symbols.
const MOST_OF_BINDINGS: usize = 3;

/// One in so many random texts is followed by two long ones, of which more is alike than is looked at together.
const LONG_ONES: usize = 5;

/// So many random texts, or more, must have every answer for a form's end among them, names of every sort, each refusal of one, and 25 of
/// every call that lexes.
const ENOUGH: u64 = 5_000;

/// The texts are shared out in so many parts, each with random numbers of its own, and the threads take one after the other: what is compared
/// does not depend on the machine.
const SHARES: u64 = 32;

struct Options {
    bytes: usize,
    symbols: usize,
    random: u64,
    seed: u64,
}

fn options() -> Option<Options> {
    let mut options = Options { bytes: 2, symbols: 4, random: 100_000, seed: 1 };
    let mut words = std::env::args().skip(1);
    while let Some(word) = words.next() {
        let number: u64 = words.next()?.parse().ok()?;
        match word.as_str() {
            "--bytes" => options.bytes = number as usize,
            "--symbols" => options.symbols = number as usize,
            "--random" => options.random = number,
            "--seed" => options.seed = number,
            _ => return None,
        }
    }
    Some(options)
}

/// A text over the limit, and the longest text: refusal 1, and a listing to the end.
fn limits(counts: &mut Counts) {
    let mut text = vec![b' '; ours::c::MAX_TEXT as usize + 1];
    let long = ours::Refused { number: ours::c::TOO_LONG, values: [0, 0], place: 3 };
    assert_eq!(ours::parse(&text, 0, 3), (ours::Found::Refused(long), 3));
    assert_eq!(ours::annotation(&text, 0, 3), ours::Found::Refused(long));
    let read = ours::read(&text, 0, [3, 3, 1], &mut []);
    assert_eq!(read, ours::Reading::Refused(long));
    let mut list = [7; 12];
    let listed = ours::list(&text, 0, 3, 9, &mut list);
    assert_eq!((listed.stop, listed.count, listed.position, list), (ours::Stop::Refused(long), 0, 3, [7; 12]));
    text.pop();
    counts.listing(&text, Settings::default(), ours::IGNORED, 0, usize::MAX, 12);
}

/// Compares the texts of one share: every `SHARES`th of those that are listed, and its part of the random ones.
fn share(options: &Options, which: u64) -> Counts {
    let mut counts = Counts::default();
    let mut chance = Texts::new(options.seed.wrapping_mul(SHARES).wrapping_add(which));
    let mut turn = 0;
    let mut each = |text: &[u8], counts: &mut Counts, chance: &mut Texts| {
        if turn % SHARES == which {
            counts.text(text, chance);
        }
        turn += 1;
    };
    let all: Vec<[u8; 1]> = (0..=255).map(|byte| [byte]).collect();
    let all: Vec<&[u8]> = all.iter().map(|byte| &byte[..]).collect();
    every(&all, options.bytes, &mut Vec::new(), &mut |text| each(text, &mut counts, &mut chance));
    let telling = TELLING.map(str::as_bytes);
    every(&telling, options.symbols, &mut Vec::new(), &mut |text| each(text, &mut counts, &mut chance));
    let mut turn = 0;
    every(&telling, options.symbols.min(MOST_OF_BINDINGS), &mut Vec::new(), &mut |text| {
        if turn % SHARES == which {
            let text = std::str::from_utf8(text).expect("symbols are UTF-8");
            counts.items += bindings::text(text, turn, &mut counts.item_refusals);
        }
        turn += 1;
    });
    for _ in (which..options.random).step_by(SHARES as usize) {
        let limit = [8, 24, 60, 200][chance.below(4)];
        let text = chance.text(limit);
        counts.text(text.as_bytes(), &mut chance);
        counts.items += bindings::text(&text, counts.texts, &mut counts.item_refusals);
        let bytes = chance.bytes(limit);
        counts.text(&bytes, &mut chance);
        counts.items += bindings::bytes(&bytes);
        if chance.below(LONG_ONES) == 0 {
            let text = chance.long();
            counts.text(text.as_bytes(), &mut chance);
            counts.items += bindings::text(&text, counts.texts, &mut counts.item_refusals);
            counts.text(&chance.long_bytes(), &mut chance);
        }
    }
    counts.escapes((which, SHARES), options.symbols);
    counts.name_texts((which, SHARES), options.symbols, options.random, options.seed);
    counts.literals((which, SHARES), options.symbols, options.random, options.seed);
    counts.nests((which, SHARES), options.symbols, options.random, options.seed);
    counts.line_ends((which, SHARES), options.symbols, options.random, options.seed);
    counts
}

/// Prints how many names of each sort were met.
fn told_names(whose: &str, named: [u64; Sort::ALL.len()]) {
    let sorts = Sort::ALL.map(|sort| match sort {
        Sort::Word => "words",
        Sort::Plain => "quoted",
        Sort::Escaped => "with escapes",
        Sort::Wrong => "not UTF-8",
        Sort::Nothing => "empty",
        Sort::QuotedNothing => "empty in quotes",
    });
    let seen = sorts.iter().zip(named).map(|(sort, count)| format!("{count} {sort}"));
    println!("{} {whose} among these: {}", named.iter().sum::<u64>(), seen.collect::<Vec<_>>().join(", "));
}

/// Prints how often each refusal was met.
fn told(what: &str, refusals: &compare::Refusals) {
    let seen = refusals.iter().map(|(number, count)| format!("{number}: {count}"));
    println!("refusals of {what} by number: {}", seen.collect::<Vec<_>>().join(", "));
}

fn main() -> ExitCode {
    let Some(options) = options() else {
        eprint!("{HELP}");
        return ExitCode::from(2);
    };
    let began = Instant::now();
    let mut counts = Counts::default();
    header::holds();
    limits(&mut counts);
    integers::limits(&mut counts);
    escapes::limits();
    names::limits();
    forms::limits();
    bindings::limits();
    let next = AtomicU64::new(0);
    let work = || {
        let mut counts = Counts::default();
        loop {
            let which = next.fetch_add(1, Ordering::Relaxed);
            if which >= SHARES {
                return counts;
            }
            counts.add(share(&options, which));
        }
    };
    thread::scope(|scope| {
        let threads = thread::available_parallelism().map_or(1, usize::from);
        let workers: Vec<_> = (0..threads).map(|_| scope.spawn(work)).collect();
        for worker in workers {
            counts.add(worker.join().expect("a thread that met no difference"));
        }
    });
    let Counts { texts, tokens, annotations, listings, readings, parts, signs, messages, .. } = counts;
    println!(
        "{texts} texts: {tokens} tokens, {annotations} annotations, {listings} listings, {readings} readings, {parts} parts, {signs} signs \
         and {messages} messages agree; {:.0} s",
        began.elapsed().as_secs_f64()
    );
    let Counts { moves, full, strings, .. } = counts;
    println!(
        "{moves} moves of the place counter agree, {full} of them refused, over these tokens and {strings} strings with line ends"
    );
    println!(
        "{} answers for names agree, of these tokens and of {} texts with names",
        counts.namings, counts.name_texts
    );
    let [ids, annotations] = counts.named;
    told_names("ids", ids);
    told_names("annotations", annotations);
    println!("{} values of integers agree, of these tokens and of {} literals", counts.values, counts.literals);
    let ends = counts.folds - counts.fold_refusals.values().sum::<u64>();
    println!(
        "{} answers for a form's end agree, {ends} of them an end, at positions of these texts and of {} nests",
        counts.folds, counts.nests
    );
    println!("{} answers of the Rust bindings agree", counts.items);
    println!("{} escapes agree, and {} tokens of strict lexing are the readers'", counts.escapes, counts.strictly);
    if options.random >= ENOUGH {
        assert!(0 < full && full < moves, "of {moves} moves {full} are refused");
        assert!(ends > 0, "no form ends");
        let met = |number: &u64| counts.fold_refusals.contains_key(number);
        assert!(forms::REFUSALS.iter().all(met), "of a form's end not all refusals: {:?}", counts.fold_refusals);
        assert!(counts.named.iter().flatten().all(|&count| count > 0), "not names of every sort");
        let met = |number: &u64| counts.name_refusals.contains_key(number);
        assert!(names::REFUSALS.iter().all(met), "of names not all refusals: {:?}", counts.name_refusals);
    }
    let lexing = [
        ("tokens and readers", counts.refusals),
        ("annotations", counts.annotation_refusals),
        ("listings", counts.list_refusals),
        ("ends of forms", counts.fold_refusals),
    ];
    let bound = bindings::CALLS.map(|call| format!("the bindings' {call}"));
    let bound = bound.iter().map(String::as_str).zip(counts.item_refusals);
    for (what, refusals) in lexing.into_iter().chain(bound) {
        told(what, &refusals);
        let double = ours::c::DOUBLE_UNDERSCORE;
        assert!(options.random < ENOUGH || refusals.contains_key(&double), "of {what} none is refused by {double}");
    }
    told("names", &counts.name_refusals);
    told("values of integers", &counts.value_refusals);
    ExitCode::SUCCESS
}
