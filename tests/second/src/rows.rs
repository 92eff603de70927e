//! The row numbers of the small edition, whose rows are single words.

use crate::edition::Edition;

/// Number of words of a table.
pub const ROWS: usize = Edition::Small.table_words();

/// Row of S(v).
pub fn s(v: u8) -> usize {
    Edition::Small.s(v)
}

/// Row of H(l,n).
pub fn h(l: u8, n: u8) -> usize {
    Edition::Small.h(l, n)
}

/// Row of P(l).
pub fn p(l: u8) -> usize {
    Edition::Small.p(l)
}

/// Row of T(k).
pub fn t(k: u8) -> usize {
    Edition::Small.t(k)
}

/// The row that holds label `l` and no other.
pub fn bit(l: u8) -> u64 {
    1u64 << l
}

/// The labels of a word, ascending.
pub fn labels(word: u64) -> impl Iterator<Item = u8> {
    let mut left = word;
    std::iter::from_fn(move || {
        if left == 0 {
            return None;
        }
        let l = left.trailing_zeros() as u8;
        left &= left - 1;
        Some(l)
    })
}
