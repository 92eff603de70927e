//! A file under outside keys in the place of class keys, and the other way round.
//!
//! Classes 1 to 7 come to hold the names that they did not hold, and the key of a class becomes the key of all names
//! outside it. So each key has the names that it had, and the table is the same.

use crate::mutate::split;
use second::generate::rekey::rekey;
use second::generate::writer::Writer;
use second::keys::{Key, CLASS_ZERO, KEY_OF_CLASS, KEY_OUTSIDE_CLASS, NAMES};

/// The most bytes by which the turned file is longer: a record for each name that has none.
pub const ADDED: usize = 3 * NAMES as usize;

pub fn turned(file: &[u8]) -> Vec<u8> {
    let mut records = split(&rekey(file, other_key));
    let mut added = Writer::new();
    for n in 0..NAMES {
        match records.iter_mut().find(|record| record[..2] == [1, n]) {
            Some(record) => record[2] = other_mask(record[2]),
            None => drop(added.name(n, other_mask(CLASS_ZERO))),
        }
    }
    [added.bytes, records.concat()].concat()
}

/// Class 0 holds every name, so its keys stay.
fn other_key(key: u8) -> u8 {
    match Key::of(key) {
        Some(Key::OfClass(c)) if c > 0 => KEY_OUTSIDE_CLASS + c,
        Some(Key::OutsideClass(c)) if c > 0 => KEY_OF_CLASS + c,
        _ => key,
    }
}

fn other_mask(mask: u8) -> u8 {
    !mask | CLASS_ZERO
}
