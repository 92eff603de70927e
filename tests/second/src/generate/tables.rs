//! Tables to check: a finished one, such as are near to it, and such as have little to do with it.

use crate::edition::Edition;
use crate::prng::Prng;

/// The finished table, none and all facts, the finished one with some bits changed, more of them each time, and random words.
pub fn tables_about(edition: Edition, r: &mut Prng, finished: &[u64]) -> Vec<Vec<u64>> {
    let words = edition.table_words();
    let mut tables = vec![finished.to_vec(), vec![0; words], vec![u64::MAX; words]];
    for changes in 1..=4 {
        let mut table = finished.to_vec();
        for _ in 0..changes * changes {
            table[r.below(words)] ^= 1 << r.below(64);
        }
        tables.push(table);
    }
    tables.push((0..words).map(|_| r.next() & r.next()).collect());
    tables
}
