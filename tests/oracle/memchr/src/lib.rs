//! The two searches that the original uses of the crate memchr, by plain iteration.

use std::iter::Enumerate;
use std::slice;

/// The index of the first byte that is one of the two.
pub fn memchr2(needle1: u8, needle2: u8, haystack: &[u8]) -> Option<usize> {
    haystack.iter().position(|&b| b == needle1 || b == needle2)
}

/// The indices of a byte, in rising order.
pub struct Memchr<'h> {
    needle: u8,
    haystack: Enumerate<slice::Iter<'h, u8>>,
}

impl<'h> Memchr<'h> {
    pub fn new(needle: u8, haystack: &'h [u8]) -> Memchr<'h> {
        Memchr {
            needle,
            haystack: haystack.iter().enumerate(),
        }
    }
}

impl Iterator for Memchr<'_> {
    type Item = usize;

    fn next(&mut self) -> Option<usize> {
        let needle = self.needle;
        self.haystack.find(|&(_, &b)| b == needle).map(|(i, _)| i)
    }
}
