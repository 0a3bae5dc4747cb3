//! The calls of include/thallusweb.h, made safe: every pointer is a slice's or an array's, and lengths are theirs.
//!
//! The header asks two things of the arguments. Pointers are good for the lengths given, and are not null: those of slices and arrays
//! are, empty ones included. What a call writes overlaps nothing else that is passed: it is borrowed by `&mut` here, and what is read by
//! `&`, or is an array of this call. No call keeps a pointer, and none has another condition.

use std::sync::atomic::{AtomicBool, Ordering};

mod c {
    // SAFETY: as include/thallusweb.h declares them; `size_t` is `usize`, and a C `bool` is `bool`.
    unsafe extern "C" {
        pub fn thallusweb_version() -> u32;
        pub fn thallusweb_utf8_check(text: *const u8, len: usize, out: *mut u64);
        pub fn thallusweb_parse(text: *const u8, len: usize, settings: u32, position: usize, out: *mut u64);
        #[cfg(test)]
        pub fn thallusweb_annotation(text: *const u8, len: usize, settings: u32, position: usize, out: *mut u64);
        pub fn thallusweb_list(
            text: *const u8,
            len: usize,
            settings: u32,
            start: usize,
            budget: usize,
            list: *mut u8,
            list_len: usize,
            out: *mut u64,
        );
        pub fn thallusweb_fold(text: *const u8, len: usize, settings: u32, position: usize, out: *mut u64);
        pub fn thallusweb_read(
            text: *const u8,
            len: usize,
            reader: u64,
            token: *const u64,
            buffer: *mut u8,
            buffer_len: usize,
            out: *mut u64,
        );
        pub fn thallusweb_name(
            text: *const u8,
            len: usize,
            token: *const u64,
            buffer: *mut u8,
            buffer_len: usize,
            out: *mut u64,
        );
        pub fn thallusweb_integer_32(text: *const u8, len: usize, token: *const u64, out: *mut u64);
        pub fn thallusweb_integer_64(text: *const u8, len: usize, token: *const u64, out: *mut u64);
        pub fn thallusweb_message(
            number: u64,
            first: u64,
            second: u64,
            buffer: *mut u8,
            buffer_len: usize,
            out: *mut u64,
        );
        pub fn thallusweb_move(place: *mut u32, bytes: *const u8, len: usize) -> bool;
    }
}

/// The version of the header that these bindings are written from.
const VERSION: u32 = 6;

/// Stops the program if it is linked with a library of another version: its words would be misread. Asks once.
#[inline]
fn same_version() {
    static ASKED: AtomicBool = AtomicBool::new(false);
    if !ASKED.load(Ordering::Relaxed) {
        // SAFETY: the call takes nothing.
        let found = unsafe { c::thallusweb_version() };
        assert!(found == VERSION, "libthallusweb has version {found}, and these bindings are for {VERSION}");
        ASKED.store(true, Ordering::Relaxed);
    }
}

/// The bits of a settings word: confusing characters are allowed, and digits are strict.
pub const ALLOW_CONFUSING: u32 = 1;
pub const STRICT_DIGITS: u32 = 2;

/// A buffer that holds every message.
pub const MESSAGE: usize = 64;

#[cfg(test)]
thread_local! {
    static HANDED: std::cell::Cell<usize> = const { std::cell::Cell::new(0) };
}

/// How many bytes of text this thread has handed to `parse`, `list` and `fold`.
#[cfg(test)]
pub fn handed() -> usize {
    HANDED.get()
}

pub fn utf8_check(text: &[u8]) -> [u64; 3] {
    same_version();
    let mut out = [0; 3];
    // SAFETY: `text` is a slice, with its length; `out` has the 3 words that are written, and is this call's own.
    unsafe { c::thallusweb_utf8_check(text.as_ptr(), text.len(), out.as_mut_ptr()) };
    out
}

pub fn parse(text: &[u8], settings: u32, position: usize) -> [u64; 6] {
    same_version();
    #[cfg(test)]
    HANDED.set(HANDED.get() + text.len());
    let mut out = [0; 6];
    // SAFETY: `text` is a slice, with its length; `out` has the 6 words that are written, and is this call's own.
    unsafe { c::thallusweb_parse(text.as_ptr(), text.len(), settings, position, out.as_mut_ptr()) };
    out
}

/// No window is proved for this call: [`annotation`](crate::lexer::Lexer::annotation) is built on `parse`, and compared with it.
#[cfg(test)]
pub fn annotation(text: &[u8], settings: u32, position: usize) -> [u64; 5] {
    let mut out = [0; 5];
    // SAFETY: `text` is a slice, with its length; `out` has the 5 words that are written, and is this call's own.
    unsafe { c::thallusweb_annotation(text.as_ptr(), text.len(), settings, position, out.as_mut_ptr()) };
    out
}

pub fn list(text: &[u8], settings: u32, start: usize, budget: usize, list: &mut [u8]) -> [u64; 7] {
    same_version();
    #[cfg(test)]
    HANDED.set(HANDED.get() + text.len());
    let mut out = [0; 7];
    let (at, room) = (list.as_mut_ptr(), list.len());
    // SAFETY: `text` and `list` are slices, with their lengths, and `list` is borrowed alone; `out` has the 7 words that are written.
    unsafe { c::thallusweb_list(text.as_ptr(), text.len(), settings, start, budget, at, room, out.as_mut_ptr()) };
    out
}

pub fn fold(text: &[u8], settings: u32, position: usize) -> [u64; 5] {
    same_version();
    #[cfg(test)]
    HANDED.set(HANDED.get() + text.len());
    let mut out = [0; 5];
    // SAFETY: `text` is a slice, with its length; `out` has the 5 words that are written, and is this call's own.
    unsafe { c::thallusweb_fold(text.as_ptr(), text.len(), settings, position, out.as_mut_ptr()) };
    out
}

pub fn read(text: &[u8], reader: u64, token: [u64; 3], buffer: &mut [u8]) -> [u64; 5] {
    same_version();
    let mut out = [0; 5];
    let (at, room) = (buffer.as_mut_ptr(), buffer.len());
    // SAFETY: `text` and `buffer` are slices, with their lengths, and `buffer` is borrowed alone; `token` has the 3 words that are read,
    // and is a copy; `out` has the 5 that are written.
    unsafe { c::thallusweb_read(text.as_ptr(), text.len(), reader, token.as_ptr(), at, room, out.as_mut_ptr()) };
    out
}

pub fn name(text: &[u8], token: [u64; 3], buffer: &mut [u8]) -> [u64; 6] {
    same_version();
    let mut out = [0; 6];
    let (at, room) = (buffer.as_mut_ptr(), buffer.len());
    // SAFETY: as for `read`, whose arguments these are but for the reader; `out` has the 6 words that are written.
    unsafe { c::thallusweb_name(text.as_ptr(), text.len(), token.as_ptr(), at, room, out.as_mut_ptr()) };
    out
}

pub fn integer_32(text: &[u8], token: [u64; 3]) -> [u64; 5] {
    same_version();
    let mut out = [0; 5];
    // SAFETY: `text` is a slice, with its length; `token` has the 3 words that are read, and is a copy; `out` has the 5 that are written.
    unsafe { c::thallusweb_integer_32(text.as_ptr(), text.len(), token.as_ptr(), out.as_mut_ptr()) };
    out
}

pub fn integer_64(text: &[u8], token: [u64; 3]) -> [u64; 5] {
    same_version();
    let mut out = [0; 5];
    // SAFETY: as for `integer_32`, whose arguments these are.
    unsafe { c::thallusweb_integer_64(text.as_ptr(), text.len(), token.as_ptr(), out.as_mut_ptr()) };
    out
}

pub fn message(number: u64, values: [u64; 2], buffer: &mut [u8]) -> [u64; 5] {
    same_version();
    let mut out = [0; 5];
    let (at, room) = (buffer.as_mut_ptr(), buffer.len());
    // SAFETY: `buffer` is a slice, with its length, and is borrowed alone; `out` has the 5 words that are written.
    unsafe { c::thallusweb_message(number, values[0], values[1], at, room, out.as_mut_ptr()) };
    out
}

pub fn move_over(place: &mut [u32; 3], bytes: &[u8]) -> bool {
    same_version();
    // SAFETY: `place` has the 3 numbers that are read and written, and is borrowed alone; `bytes` is a slice, with its length.
    unsafe { c::thallusweb_move(place.as_mut_ptr(), bytes.as_ptr(), bytes.len()) }
}

#[cfg(test)]
mod tests {
    /// The bindings are for the header beside them.
    #[test]
    fn version_is_the_headers() {
        let header = include_str!("../../../include/thallusweb.h");
        assert!(header.contains(&format!("#define THALLUSWEB_VERSION {}\n", super::VERSION)));
    }
}
