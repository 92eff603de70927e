//! Generator (f): files with labels in every word of a row, the last label of the edition among them.

use super::relabel::{identity, relabel, Map};
use super::{random_in, rounds_in, structured_in, title, Named};
use crate::edition::Edition;

/// Makes a random file, one of pieces or one of many rounds, with at most the labels of the small edition, and gives label 5, which
/// is forbidden where the file is no random one, the last number; the others go round the words of a row from the top.
pub fn spread_in(edition: Edition, seed: u64) -> Named {
    let make = [random_in, structured_in, rounds_in][seed as usize % 3];
    let (name, file) = make(Edition::Small, seed);
    (format!("{}-{name}", title(edition, "spread", seed)), relabel(&file, &round_the_words(edition)))
}

/// Label 5 becomes the last one of the last word, 6 the last one of the word before, and so on, each word from its end.
fn round_the_words(edition: Edition) -> Map {
    let words = 0..edition.words();
    let labels = (0..64).rev().flat_map(|bit| words.clone().rev().map(move |word| 64 * word + bit));
    let mut map = identity();
    for (l, number) in (5..).zip(labels.filter(|&number| number >= 5)) {
        map[l as usize] = number as u8;
    }
    map
}
