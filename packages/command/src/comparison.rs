//! A table beside the finished one of its file.

use crate::row::Row;
use pezvoran::format::read;
use pezvoran::{verdict, Edition, Table};

/// How a table differs from the finished one. Row 0 and labels that are not declared count as absent.
#[derive(Debug)]
pub struct Comparison {
    more: Facts,
    lacks: Facts,
    /// Whether there is anything in row 0 or of labels that are not declared.
    has_absent: bool,
}

/// So many facts, and the first of them.
#[derive(Debug, Default)]
struct Facts {
    count: usize,
    first: Option<(Row, u8)>,
}

impl Comparison {
    /// Of a file that is not refused.
    pub fn of<E: Edition>(file: &[u8], table: &Table<E>) -> Comparison {
        let mut finished = Table::new();
        verdict(file, &mut finished);
        let meant = meant::<E>(file, table);
        Comparison { more: Facts::of(&meant, &finished), lacks: Facts::of(&finished, &meant), has_absent: meant != *table }
    }

    /// What is different; none where the table is the finished one.
    pub fn words(&self) -> Option<String> {
        let facts = match (self.more.words(), self.lacks.words()) {
            (None, None) => None,
            (Some(more), None) => Some(format!("it holds more, {more}")),
            (None, Some(lacks)) => Some(format!("it lacks {lacks}")),
            (Some(more), Some(lacks)) => Some(format!("it holds others, {more}, and lacks {lacks}")),
        };
        let absent =
            self.has_absent.then(|| "something is in row 0 or of labels that are not declared, which counts as absent and is not shown".into());
        let words: Vec<String> = facts.into_iter().chain(absent).collect();
        (!words.is_empty()).then(|| words.join("; "))
    }
}

impl Facts {
    /// Those that the one table has and the other has not.
    fn of<E: Edition>(one: &Table<E>, other: &Table<E>) -> Facts {
        let mut facts = Facts::default();
        for row in 0..E::ROWS {
            for label in difference(one, other, row) {
                facts.count += 1;
                facts.first.get_or_insert((Row::of_number::<E>(row), label));
            }
        }
        facts
    }

    fn words(&self) -> Option<String> {
        let (row, label) = self.first?;
        Some(match self.count {
            1 => format!("label {label} in {row}"),
            count => format!("{count} facts such as label {label} in {row}"),
        })
    }
}

/// The table without what counts as absent.
pub fn meant<E: Edition>(file: &[u8], table: &Table<E>) -> Table<E> {
    let declared = declared::<E>(file);
    let mut meant = table.clone();
    for (row, words) in meant.words_mut().chunks_exact_mut(E::ROW_WORDS).enumerate() {
        words.iter_mut().zip(&declared).for_each(|(word, declared)| *word &= if row == 0 { 0 } else { *declared });
    }
    meant
}

/// The declared labels as the words of a row.
fn declared<E: Edition>(file: &[u8]) -> Vec<u64> {
    let mut words = vec![0; E::ROW_WORDS];
    for label in read::<E>(file).iter().flat_map(|sheet| sheet.labels()) {
        words[usize::from(label) / 64] |= 1 << (label % 64);
    }
    words
}

/// The labels that a row of the one table has and that of the other has not.
pub fn difference<'a, E: Edition>(one: &Table<E>, other: &'a Table<E>, row: usize) -> impl Iterator<Item = u8> + 'a {
    let words = &other.words()[row * E::ROW_WORDS..][..E::ROW_WORDS];
    one.row(row).filter(move |&label| words[usize::from(label) / 64] >> (label % 64) & 1 == 0)
}
