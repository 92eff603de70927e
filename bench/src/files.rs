//! The files of the benchmark: ordinary ones, dense ones, and those laid out to be slow.

pub mod course;
pub mod dense;
pub mod filler;
pub mod lists;
pub mod maze;
pub mod module;
pub mod ordinary;
pub mod profiled;
pub mod turned;
pub mod worst;

use second::keys::{KEYS_END, KEY_OF_CLASS};
use second::prng::Prng;
use second::reader::record_starts;

/// The longest statement file that is read.
pub const LONGEST: usize = 32_768;

/// A key for all names of a class or for all outside one.
pub fn some_class_key(r: &mut Prng) -> u8 {
    r.between(KEY_OF_CLASS as usize, KEYS_END as usize - 1) as u8
}

/// The number of records of a readable file.
pub fn records(file: &[u8]) -> usize {
    record_starts(file).len()
}
