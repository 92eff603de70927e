//! Gives the loads and stores of a file other keys.

use crate::reader::record_starts;

/// Where the key stands in a record, counted from the kind byte.
fn key_offset(kind: u8) -> Option<usize> {
    match kind {
        17 => Some(4),
        18 => Some(3),
        _ => None,
    }
}

/// Positions of the keys, up to the first unknown kind.
pub fn key_positions(file: &[u8]) -> impl Iterator<Item = usize> + '_ {
    let keys = record_starts(file).into_iter().filter_map(|start| Some(start + key_offset(file[start])?));
    keys.filter(|&position| position < file.len())
}

/// The file with its keys changed by the function.
pub fn rekey(file: &[u8], mut change: impl FnMut(u8) -> u8) -> Vec<u8> {
    let mut changed = file.to_vec();
    for position in key_positions(file) {
        changed[position] = change(file[position]);
    }
    changed
}
