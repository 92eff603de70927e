//! The two editions: how many labels there are, and where each fact then stands in the table.

use crate::row::Row;
use std::ops::RangeInclusive;

#[derive(Clone, Copy, PartialEq, Eq, PartialOrd, Ord, Debug)]
pub enum Edition {
    /// Document 01: labels 0 to 63, a row is one word.
    Small,
    /// Request 13, the large desk edition: labels 0 to 255, a row is four words.
    Large,
}

impl Edition {
    pub const BOTH: [Edition; 2] = [Edition::Small, Edition::Large];

    /// Number of labels.
    pub const fn labels(self) -> usize {
        match self {
            Edition::Small => 64,
            Edition::Large => 256,
        }
    }

    /// The labels that a file may declare.
    pub fn declarable(self) -> RangeInclusive<u8> {
        5..=(self.labels() - 1) as u8
    }

    /// Number of words of a row: label l is bit l of their run.
    pub const fn words(self) -> usize {
        self.labels() / 64
    }

    /// Number of rows of a table: S of every variable; H under 32 names, P and T of every label.
    pub const fn rows(self) -> usize {
        256 + 32 * self.labels() + self.labels() + self.labels()
    }

    /// Number of words of a table.
    pub const fn table_words(self) -> usize {
        self.rows() * self.words()
    }

    /// Row of S(v).
    pub fn s(self, v: u8) -> usize {
        v as usize
    }

    /// Row of H(l,n).
    pub fn h(self, l: u8, n: u8) -> usize {
        256 + 32 * l as usize + n as usize
    }

    /// Row of P(l).
    pub fn p(self, l: u8) -> usize {
        256 + 32 * self.labels() + l as usize
    }

    /// Row of T(k).
    pub fn t(self, k: u8) -> usize {
        256 + 33 * self.labels() + k as usize
    }

    /// A row of a table.
    pub fn row(self, table: &[u64], row: usize) -> Row {
        Row::from_words(&table[row * self.words()..][..self.words()])
    }

    /// Puts a row in its place in a table.
    pub fn put(self, table: &mut [u64], row: usize, labels: Row) {
        table[row * self.words()..][..self.words()].copy_from_slice(labels.words(self));
    }

    /// The rows as the words of a table.
    pub fn table(self, rows: &[Row]) -> Vec<u64> {
        rows.iter().flat_map(|row| row.words(self)).copied().collect()
    }
}
