//! Links the static library that `tests/native-lib` leaves in target/native, and turns include/thallusweb.h into the module
//! `ours::c`: what is compared is what a C caller is told. Each line of the header has to be one that is understood here, and its
//! prototypes have to be those of crates/thallusweb_c.

use std::collections::BTreeSet;
use std::fmt::Write;
use std::{env, fs};

/// Cargo runs this in the package's folder.
const ROOT: &str = "../..";

/// The header's front and end, without comments and with single spaces.
const FRONT: &str = "#ifndef THALLUSWEB_H #define THALLUSWEB_H #include <stdbool.h> #include <stddef.h> #include <stdint.h> \
                     #ifdef __cplusplus extern \"C\" { #endif ";
const END: &str = " #ifdef __cplusplus } #endif #endif";

fn read(name: &str) -> String {
    let path = format!("{ROOT}/{name}");
    println!("cargo:rerun-if-changed={path}");
    fs::read_to_string(&path).unwrap_or_else(|error| panic!("{path}: {error}"))
}

/// The text without its comments, each run of white space as one space; a line of the preprocessor begins with `#`.
fn plain(header: &str) -> String {
    let mut rest = header;
    let mut bare = String::new();
    while let Some((before, after)) = rest.split_once("/*") {
        bare.push_str(before);
        bare.push(' ');
        rest = after.split_once("*/").expect("a comment that is closed").1;
    }
    bare.push_str(rest);
    bare.split_whitespace().collect::<Vec<_>>().join(" ")
}

fn constant(name: &str, value: u64) -> String {
    let name = name.trim().strip_prefix("THALLUSWEB_").unwrap_or_else(|| panic!("a constant's name: {name}"));
    format!("pub const {name}: u64 = {value};\n")
}

fn number(word: &str) -> u64 {
    word.trim().parse().unwrap_or_else(|_| panic!("a decimal number: {word}"))
}

/// The constants of `A = 1, B, C = 7`.
fn enumerated(names: &str) -> String {
    let mut next = 0;
    let mut constants = String::new();
    for name in names.split(',') {
        let (name, value) = name.split_once('=').map_or((name, next), |(name, value)| (name, number(value)));
        constants += &constant(name, value);
        next = value + 1;
    }
    constants
}

fn rust_type(c: &str) -> &str {
    match c {
        "uint8_t" => "u8",
        "uint32_t" => "u32",
        "uint64_t" => "u64",
        "size_t" => "usize",
        "bool" => "bool",
        _ => panic!("a type of C that is known here: {c}"),
    }
}

/// A parameter of C, such as `const uint8_t *text` or `uint64_t out[6]`, as Rust has it.
fn parameter(c: &str) -> String {
    let (constness, rest) = c.strip_prefix("const ").map_or(("mut", c), |rest| ("const", rest));
    let (base, name) = rest.split_once(' ').unwrap_or_else(|| panic!("a parameter: {c}"));
    let base = rust_type(base);
    if let Some(name) = name.strip_prefix('*') {
        format!("{name}: *{constness} {base}")
    } else if let Some((name, len)) = name.strip_suffix(']').and_then(|name| name.split_once('[')) {
        format!("{name}: *{constness} [{base}; {}]", number(len))
    } else {
        assert_eq!(constness, "mut", "a parameter by value: {c}");
        format!("{name}: {base}")
    }
}

/// A prototype of C without its `;`, as Rust has it.
fn prototype(c: &str) -> String {
    let (head, parameters) =
        c.strip_suffix(')').and_then(|c| c.split_once('(')).unwrap_or_else(|| panic!("a prototype: {c}"));
    let (result, name) = head.split_once(' ').unwrap_or_else(|| panic!("a prototype: {c}"));
    let parameters: Vec<_> = parameters.split(", ").filter(|c| *c != "void").map(parameter).collect();
    let result = if result == "void" { String::new() } else { format!(" -> {}", rust_type(result)) };
    format!("fn {name}({}){result}", parameters.join(", "))
}

/// A parameter of Rattle, as a C caller passes it: a slice by its start and its length.
fn passed(rattle: &str) -> String {
    let (name, kind) = rattle.split_once(": ").unwrap_or_else(|| panic!("a parameter: {rattle}"));
    let Some(lent) = kind.strip_prefix('&') else {
        return format!("{name}: {kind}");
    };
    let (constness, lent) = lent.strip_prefix("mut ").map_or(("const", lent), |lent| ("mut", lent));
    if lent.contains(';') {
        return format!("{name}: *{constness} {lent}");
    }
    let len = if matches!(name, "text" | "bytes") { "len".to_string() } else { format!("{name}_len") };
    format!("{name}: *{constness} {}, {len}: usize", lent.trim_matches(['[', ']']))
}

/// The calls that the crate exports, as a C caller sees them.
fn exported(crate_source: &str) -> BTreeSet<String> {
    let source = crate_source.split_whitespace().collect::<Vec<_>>().join(" ");
    let one = |call: &str| {
        let (name, rest) = call.split_once('(').expect("parameters");
        let (parameters, rest) = rest.split_once(')').expect("the parameters' end");
        let result = rest.split("ensures").next().unwrap_or("").trim_end();
        let parameters = parameters.split(',').map(str::trim).filter(|one| !one.is_empty());
        let parameters: Vec<_> = parameters.map(passed).collect();
        format!("fn {name}({}){result}", parameters.join(", "))
    };
    source.split("pub extern \"C\" fn ").skip(1).map(one).collect()
}

/// The header's constants and calls as Rust.
fn module(header: &str, exported: &BTreeSet<String>) -> String {
    let plain = plain(header);
    let mut rest = plain
        .strip_prefix(FRONT)
        .and_then(|rest| rest.strip_suffix(END))
        .expect("a header between its guard and extern \"C\"");
    let mut constants = String::new();
    let mut calls = BTreeSet::new();
    while !rest.is_empty() {
        if let Some(define) = rest.strip_prefix("#define ") {
            let (name, after) = define.split_once(' ').expect("a constant's value");
            let (value, after) = after.split_once(' ').unwrap_or((after, ""));
            constants += &constant(name, number(value));
            rest = after;
        } else if let Some(names) = rest.strip_prefix("enum { ") {
            let (names, after) = names.split_once(" };").expect("an enum's end");
            constants += &enumerated(names);
            rest = after.trim_start();
        } else {
            let (call, after) = rest.split_once(';').unwrap_or_else(|| panic!("a line of the header: {rest}"));
            assert!(calls.insert(prototype(call)), "declared twice: {call}");
            rest = after.trim_start();
        }
    }
    let library: Vec<_> = exported.difference(&calls).collect();
    let declared: Vec<_> = calls.difference(exported).collect();
    assert!(library.is_empty() && declared.is_empty(), "the library has {library:#?}, the header {declared:#?}");
    let mut module = constants + "unsafe extern \"C\" {\n";
    for call in &calls {
        writeln!(module, "    pub fn {};", &call[3..]).expect("a string");
    }
    module + "}\n"
}

fn main() {
    let package = env::var("CARGO_MANIFEST_DIR").expect("cargo's CARGO_MANIFEST_DIR");
    let folder = format!("{package}/{ROOT}/target/native");
    println!("cargo:rerun-if-changed={folder}/libthallusweb.a");
    println!("cargo:rustc-link-search=native={folder}");
    println!("cargo:rustc-link-lib=static=thallusweb");
    let module = module(&read("include/thallusweb.h"), &exported(&read("crates/thallusweb_c/src/lib.rt")));
    let out = env::var("OUT_DIR").expect("cargo's OUT_DIR");
    fs::write(format!("{out}/header.rs"), module).expect("a file in OUT_DIR");
}
