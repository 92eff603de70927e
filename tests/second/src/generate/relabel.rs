//! Gives the labels of a file other numbers, so that small numbers become large ones.

use crate::prng::Prng;
use crate::reader::record_starts;

/// For each label the number that it gets.
pub type Map = [u8; 256];

/// The map that leaves every label as it is.
pub fn identity() -> Map {
    std::array::from_fn(|l| l as u8)
}

/// A map that leaves labels 0 to 4 and puts 5 to 255 in any order.
pub fn any_order(r: &mut Prng) -> Map {
    let mut map = identity();
    r.shuffle(&mut map[5..]);
    map
}

/// The bytes of the body, counted from 0, that are labels or scopes.
fn label_bytes(kind: u8) -> &'static [usize] {
    match kind {
        1 | 6 | 9 => &[],
        5 | 8 => &[1],
        7 | 19 => &[0, 2],
        17 | 22 => &[0, 4],
        20 => &[0, 2, 3],
        _ => &[0],
    }
}

/// The file with the labels of its records changed by the map, up to the first unknown kind.
pub fn relabel(file: &[u8], map: &Map) -> Vec<u8> {
    let mut changed = file.to_vec();
    for start in record_starts(file) {
        for byte in label_bytes(file[start]) {
            if let Some(label) = changed.get_mut(start + 1 + byte) {
                *label = map[*label as usize];
            }
        }
    }
    changed
}
