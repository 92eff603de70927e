//! Files whose guest is held to a class of names: to one that has every name, beside the same file without the record, and to one that has half of them.

use super::LONGEST;
use crate::mutate::split;
use second::generate::writer::Writer;
use second::keys::{CLASS_ZERO, NAMES};

/// The class that the guest is held to.
const CLASS: u8 = 7;

/// The bytes that a record for each name and the profile need.
const ADDED: usize = 3 * NAMES as usize + 2;

/// The file with every name in the class, and the same with the profile: the guest may use every name in both.
pub fn held_to_every_name(file: &[u8]) -> [Vec<u8>; 2] {
    let without = in_class(file, |_| true);
    let with = [&without[..], &Writer::new().profile(CLASS).bytes].concat();
    [without, with]
}

/// The file with every other name in the class, the prototype property's among them, and the guest held to it.
pub fn held_to_half(file: &[u8]) -> Vec<u8> {
    [Writer::new().profile(CLASS).bytes.clone(), in_class(file, |name| name % 2 == 1)].concat()
}

/// The file with these names in the class and no others, its last statements left out where it would be too long.
fn in_class(file: &[u8], has: impl Fn(u8) -> bool) -> Vec<u8> {
    let mut records = split(file);
    while records.iter().map(Vec::len).sum::<usize>() + ADDED > LONGEST {
        records.pop();
    }
    let masked = |mask: u8, name| if has(name) { mask | 1 << CLASS } else { mask & !(1 << CLASS) };
    let mut added = Writer::new();
    for name in 0..NAMES {
        match records.iter_mut().find(|record| record[..2] == [1, name]) {
            Some(record) => record[2] = masked(record[2], name),
            None => drop(added.name(name, masked(CLASS_ZERO, name))),
        }
    }
    [added.bytes, records.concat()].concat()
}
