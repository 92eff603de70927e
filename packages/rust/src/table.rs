//! A table of full size, and its rows by what they stand for; what can be lent to an operation.

use crate::edition::VARIABLES;
use crate::{Edition, Large, NAMES};
use std::marker::PhantomData;

/// A full table of an edition.
#[derive(Clone, Debug, PartialEq, Eq)]
pub struct Table<E> {
    words: Box<[u64]>,
    edition: PhantomData<E>,
}

impl<E: Edition> Table<E> {
    /// A table of zeros.
    pub fn new() -> Table<E> {
        Table { words: vec![0; E::TABLE_WORDS].into(), edition: PhantomData }
    }

    /// The words: row after row.
    pub fn words(&self) -> &[u64] {
        &self.words
    }

    /// The words, to be changed.
    pub fn words_mut(&mut self) -> &mut [u64] {
        &mut self.words
    }

    /// What the guest may hold.
    pub fn guest(&self) -> Labels {
        self.variable(1)
    }

    /// What a variable may hold.
    pub fn variable(&self, variable: u8) -> Labels {
        self.row(variable.into())
    }

    /// What a property of a label's objects may hold. Panics for a label that the edition does not have or a name above 31.
    pub fn property(&self, label: u8, name: u8) -> Labels {
        assert!(usize::from(name) < NAMES, "names are 0 to 31");
        self.row(VARIABLES + NAMES * number::<E>(label) + usize::from(name))
    }

    /// What may stand on the prototype chain of a label's objects. Panics for a label that the edition does not have.
    pub fn chain(&self, label: u8) -> Labels {
        self.row(E::ROWS - 2 * E::LABELS + number::<E>(label))
    }

    /// What may be thrown in a scope. Panics for a scope that is no label of the edition.
    pub fn thrown(&self, scope: u8) -> Labels {
        self.row(E::ROWS - E::LABELS + number::<E>(scope))
    }

    /// The labels of a row by its number, which refusal 10 gives. Panics where there is no such row.
    pub fn row(&self, row: usize) -> Labels {
        let mut labels = Labels([0; Large::ROW_WORDS]);
        labels.0[..E::ROW_WORDS].copy_from_slice(&self.words[row * E::ROW_WORDS..][..E::ROW_WORDS]);
        labels
    }

    /// The words, low byte first, to be kept in a file.
    pub fn to_bytes(&self) -> Vec<u8> {
        self.words.iter().flat_map(|word| word.to_le_bytes()).collect()
    }

    /// A table from `to_bytes`; none where the bytes are not as many as the edition's tables have.
    pub fn from_bytes(bytes: &[u8]) -> Option<Table<E>> {
        let words = bytes.chunks_exact(8).map(|word| u64::from_le_bytes(word.try_into().expect("eight bytes")));
        (bytes.len() == E::TABLE_WORDS * 8).then(|| Table { words: words.collect(), edition: PhantomData })
    }
}

/// The number of a label of the edition.
fn number<E: Edition>(label: u8) -> usize {
    assert!(usize::from(label) < E::LABELS, "labels are 0 to {}", E::LABELS - 1);
    label.into()
}

impl<E: Edition> Default for Table<E> {
    fn default() -> Table<E> {
        Table::new()
    }
}

/// What can be lent to an operation of the edition: a table of that edition, or plain words of any number.
pub trait Lent<E> {
    fn words(&self) -> &[u64];
    fn words_mut(&mut self) -> &mut [u64];
}

impl<E: Edition> Lent<E> for Table<E> {
    fn words(&self) -> &[u64] {
        &self.words
    }

    fn words_mut(&mut self) -> &mut [u64] {
        &mut self.words
    }
}

impl<E: Edition, W: AsRef<[u64]> + AsMut<[u64]> + ?Sized> Lent<E> for W {
    fn words(&self) -> &[u64] {
        self.as_ref()
    }

    fn words_mut(&mut self) -> &mut [u64] {
        self.as_mut()
    }
}

/// The labels of a row, ascending.
#[derive(Clone, Copy, Debug, PartialEq, Eq)]
pub struct Labels([u64; Large::ROW_WORDS]);

impl Iterator for Labels {
    type Item = u8;

    fn next(&mut self) -> Option<u8> {
        let (place, word) = self.0.iter_mut().enumerate().find(|(_, word)| **word != 0)?;
        let lowest = word.trailing_zeros();
        *word &= *word - 1;
        Some((place as u32 * u64::BITS + lowest) as u8)
    }
}
