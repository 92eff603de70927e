//! Generator (i): profiles (request 04), put at any place into files of the other generators, and taken out again.

use super::top_returns::records;
use super::writer::Writer;
use super::{random_in, rounds_in, spread_in, structured_in, title, Named};
use crate::edition::Edition;
use crate::keys::{CLASSES, CLASS_ZERO, NAMES};
use crate::prng::Prng;
use crate::program::LONGEST_FILE;

/// The class of a record that is a whole profile.
pub fn profile(record: &[u8]) -> Option<u8> {
    match *record {
        [9, class] => Some(class),
        _ => None,
    }
}

/// The file without its profiles.
pub fn without_profile(file: &[u8]) -> Vec<u8> {
    records(file).filter(|record| profile(record).is_none()).flatten().copied().collect()
}

/// The file with the record at any place.
pub fn anywhere(r: &mut Prng, file: &[u8], record: &[u8]) -> Vec<u8> {
    let place = r.below(records(file).count() + 1);
    let before: usize = records(file).take(place).map(<[u8]>::len).sum();
    [&file[..before], record, &file[before..]].concat()
}

/// The file with the class given to the chosen names, and taken from all others: in their records, and in more of these at any places.
pub fn with_class(r: &mut Prng, file: &[u8], class: u8, mut chosen: impl FnMut(u8) -> bool) -> Vec<u8> {
    let mut w = Writer::new();
    let mut left: Vec<u8> = (0..NAMES).collect();
    let mut mask = |n: u8, mask: u8| CLASS_ZERO | if chosen(n) { mask | 1 << class } else { mask & !(1 << class) };
    for record in records(file) {
        if let [1, n, classes] = *record {
            left.retain(|&other| other != n);
            w.name(n, mask(n, classes));
        } else {
            w.put(record);
        }
    }
    let mut changed = w.bytes;
    for n in left {
        let classes = mask(n, CLASS_ZERO);
        if classes != CLASS_ZERO {
            changed = anywhere(r, &changed, &[1, n, classes]);
        }
    }
    changed
}

/// The file with every name in some class: without a profile, and with one to that class at any place.
pub fn with_every_name(r: &mut Prng, file: &[u8]) -> [Vec<u8>; 2] {
    let class = r.below(CLASSES as usize) as u8;
    let free = with_class(r, &without_profile(file), class, |_| true);
    let held = anywhere(r, &free, &[9, class]);
    [free, held]
}

/// Makes a random file, one of pieces, of many rounds or of spread labels, gives a class some names, and holds the guest to it. A file that is too long
/// for that stays as it is.
pub fn profiles_in(edition: Edition, seed: u64) -> Named {
    let mut r = Prng::new(seed.wrapping_mul(41).wrapping_add(0x13));
    let make = [random_in, structured_in, rounds_in, spread_in][seed as usize % 4];
    let (name, file) = make(edition, seed);
    let class = r.below(CLASSES as usize) as u8;
    let share = r.pick(&[1, 8, 16, 24, 31]);
    let mut held = without_profile(&file);
    if r.chance(3, 4) {
        let chosen: u32 = (0..NAMES).filter(|_| r.chance(share, NAMES as usize)).fold(0, |all, n| all | 1 << n);
        held = with_class(&mut r, &held, class, |n| chosen >> n & 1 == 1);
    }
    held = match r.below(3) {
        0 => [vec![9, class], held].concat(),
        1 => [held, vec![9, class]].concat(),
        _ => anywhere(&mut r, &held, &[9, class]),
    };
    (format!("{}-{name}", title(edition, "profiles", seed)), if held.len() <= LONGEST_FILE { held } else { file })
}
