//! Generator (d), first part: readable files of the other generators, damaged.

use super::edges::{border_bytes, CLASS_BORDERS, KEY_BORDERS, KINDS};
use super::rekey::key_positions;
use super::{random_in, rounds_in, structured_in, title, Named};
use crate::edition::Edition;
use crate::prng::Prng;
use crate::reader::{body_length, record_starts};

/// Makes a readable file and then changes, cuts, inserts, doubles or swaps some of its bytes, keys and the fields of returns among them, or puts
/// in a profile, which may be one too many.
pub fn damaged_in(edition: Edition, seed: u64) -> Named {
    let mut r = Prng::new(seed.wrapping_mul(17).wrapping_add(0xD));
    let base = r.next() % 100_000;
    let (name, mut bytes) = match r.below(3) {
        0 => random_in(edition, base),
        1 => structured_in(edition, base),
        _ => rounds_in(edition, base),
    };
    for _ in 0..r.between(1, 3) {
        damage(edition, &mut r, &mut bytes);
    }
    (format!("{}-{name}", title(edition, "damaged", seed)), bytes)
}

fn damage(edition: Edition, r: &mut Prng, bytes: &mut Vec<u8>) {
    let starts = record_starts(bytes);
    if bytes.is_empty() || starts.is_empty() {
        bytes.push(r.byte());
        return;
    }
    let at = r.below(bytes.len());
    let start = r.pick(&starts);
    match r.below(11) {
        0 => bytes[at] = r.byte(),
        1 => bytes[at] = r.pick(border_bytes(edition)),
        2 => bytes.truncate(at),
        3 => bytes.insert(at, r.byte()),
        4 => drop(bytes.remove(at)),
        5 => bytes[start] = r.pick(&KINDS),
        6 => {
            let key = key_positions(bytes).find(|&key| key >= at);
            if let Some(key) = key {
                bytes[key] = r.pick(&KEY_BORDERS);
            }
        }
        7 => {
            let returns = starts.iter().find(|&&start| start >= at && bytes[start] == 23);
            let field = returns.map(|start| start + r.between(1, 2)).filter(|&field| field < bytes.len());
            if let Some(field) = field {
                bytes[field] = r.pick(border_bytes(edition));
            }
        }
        8 => drop(bytes.splice(start..start, [9, r.pick(&CLASS_BORDERS)])),
        9 => {
            let length = body_length(bytes[start]).unwrap_or(0) + 1;
            let record = bytes[start..(start + length).min(bytes.len())].to_vec();
            let to = r.pick(&starts);
            bytes.splice(to..to, record);
        }
        _ => {
            let length = body_length(bytes[start]).unwrap_or(0) + 1;
            let end = (start + length).min(bytes.len());
            bytes.drain(start..end);
        }
    }
}
