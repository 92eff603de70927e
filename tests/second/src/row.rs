//! A row of the table as a set of labels.

use crate::edition::Edition;
use crate::rows::labels;
use std::ops::{BitAnd, BitOr, BitOrAssign, Not};

/// Label l is bit l of the run of four words; in the small edition all but the first are 0.
#[derive(Clone, Copy, PartialEq, Eq, Default, Debug)]
pub struct Row([u64; 4]);

impl Row {
    pub const EMPTY: Row = Row([0; 4]);

    /// The row that holds label `l` and no other.
    pub fn of(l: u8) -> Row {
        let mut row = Row::EMPTY;
        row.0[l as usize / 64] = 1 << (l % 64);
        row
    }

    /// A row of the edition in which a row has that many words.
    pub fn from_words(words: &[u64]) -> Row {
        let mut row = Row::EMPTY;
        row.0[..words.len()].copy_from_slice(words);
        row
    }

    /// The words of the row in the edition.
    pub fn words(&self, edition: Edition) -> &[u64] {
        &self.0[..edition.words()]
    }

    pub fn is_empty(self) -> bool {
        self == Row::EMPTY
    }

    pub fn has(self, l: u8) -> bool {
        self.0[l as usize / 64] >> (l % 64) & 1 == 1
    }

    /// Number of labels.
    pub fn count(self) -> u32 {
        self.0.iter().map(|word| word.count_ones()).sum()
    }

    /// The labels, ascending.
    pub fn labels(self) -> impl Iterator<Item = u8> {
        (0u8..4).flat_map(move |word| labels(self.0[word as usize]).map(move |l| 64 * word + l))
    }

    /// The lowest label.
    pub fn lowest(self) -> Option<u8> {
        self.labels().next()
    }
}

impl FromIterator<u8> for Row {
    fn from_iter<I: IntoIterator<Item = u8>>(labels: I) -> Row {
        labels.into_iter().fold(Row::EMPTY, |row, l| row | Row::of(l))
    }
}

impl BitOr for Row {
    type Output = Row;

    fn bitor(self, other: Row) -> Row {
        Row(std::array::from_fn(|i| self.0[i] | other.0[i]))
    }
}

impl BitOrAssign for Row {
    fn bitor_assign(&mut self, other: Row) {
        *self = *self | other;
    }
}

impl BitAnd for Row {
    type Output = Row;

    fn bitand(self, other: Row) -> Row {
        Row(std::array::from_fn(|i| self.0[i] & other.0[i]))
    }
}

impl Not for Row {
    type Output = Row;

    fn not(self) -> Row {
        Row(self.0.map(|word| !word))
    }
}
