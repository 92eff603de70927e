//! Generator (h): returns at the top level (request 02) of everything the host has, put into files of the other generators, and taken out again.

use super::writer::Writer;
use super::{random_in, rounds_in, spread_in, structured_in, title, Named};
use crate::edition::Edition;
use crate::prng::Prng;
use crate::program::LONGEST_FILE;
use crate::reader::body_length;

/// The length of the record.
const LENGTH: usize = 3;

/// The records of a file; from the first unknown kind on all bytes are one piece, and so are those of a record cut short.
pub fn records(file: &[u8]) -> impl Iterator<Item = &[u8]> {
    let mut left = file;
    std::iter::from_fn(move || {
        let length = body_length(*left.first()?).map_or(left.len(), |body| left.len().min(1 + body));
        let (record, rest) = left.split_at(length);
        left = rest;
        Some(record)
    })
}

/// The value of a record that is a whole return at the top level.
pub fn top_return(record: &[u8]) -> Option<u8> {
    match *record {
        [23, 0, value] => Some(value),
        _ => None,
    }
}

/// The file with returns at the top level of 0 and of every variable declared so far, at the places between records that are chosen,
/// each told by its position and the variable; no more of them than the longest file has room for.
pub fn with_top_returns(file: &[u8], mut chosen: impl FnMut(usize, u8) -> bool) -> Vec<u8> {
    let mut w = Writer::new();
    let mut room = LONGEST_FILE.saturating_sub(file.len()) / LENGTH;
    let mut variables = vec![0];
    let mut place = 0;
    let end: &[u8] = &[];
    for record in records(file).chain([end]) {
        for &v in &variables {
            if room > 0 && chosen(place, v) {
                w.give_back(0, v);
                room -= 1;
            }
        }
        if let [5, v, _, _] = *record {
            variables.push(v);
        }
        w.put(record);
        place += record.len();
    }
    w.bytes
}

/// The file without its returns at the top level.
pub fn without_top_returns(file: &[u8]) -> Vec<u8> {
    records(file).filter(|record| top_return(record).is_none()).flatten().copied().collect()
}

/// Makes a random file, one of pieces, of many rounds or of spread labels, and puts returns at the top level of everything the host has at
/// its end, at some places or at all of them.
pub fn top_returns_in(edition: Edition, seed: u64) -> Named {
    let mut r = Prng::new(seed.wrapping_mul(37).wrapping_add(0x12));
    let make = [random_in, structured_in, rounds_in, spread_in][seed as usize % 4];
    let (name, file) = make(edition, seed);
    let (places, file) = match r.below(3) {
        0 => ("end", with_top_returns(&file, |place, _| place == file.len())),
        1 => ("all", with_top_returns(&file, |_, _| true)),
        _ => {
            let whole = r.pick(&[3, 30, 300]);
            ("some", with_top_returns(&file, |_, _| r.chance(1, whole)))
        }
    };
    (format!("{}-{places}-{name}", title(edition, "top-returns", seed)), file)
}
