//! Generated files that are short enough for many solutions and walks.

use second::generate::{profiles_in, random_in, rounds_in, structured_in};
use second::program::Program;
use second::reader::read_in;
use second::Edition;

const LONGEST: usize = 6_000;

pub struct Made {
    edition: Edition,
    pub seed: u64,
    pub name: String,
    pub file: Vec<u8>,
}

impl Made {
    pub fn program(&self) -> Program {
        read_in(self.edition, &self.file).expect("readable")
    }
}

/// Structured, many-round and random files, and files with a profile, for the seeds from 0 on.
pub fn short_files(edition: Edition, seeds: u64) -> impl Iterator<Item = Made> {
    let makers = [structured_in, rounds_in, random_in, profiles_in];
    let all = (0..seeds).flat_map(move |seed| {
        makers.map(|make| {
            let (name, file) = make(edition, seed);
            Made { edition, seed, name, file }
        })
    });
    all.filter(|made| made.file.len() <= LONGEST)
}
