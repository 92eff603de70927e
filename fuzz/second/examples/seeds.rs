//! Writes inputs for the fuzz target: generated statement files of both editions, in inputs of at most LONGEST bytes, behind heads whose mode goes round.
//! seeds FOLDER COUNT LONGEST

use second::generate::{edges_in, every_in};
use second::Edition;
use std::fs;
use std::path::Path;

/// Modes of `input.h`: files as they are, what the table holds, memory before or behind, a raw file, a changed byte, functions left out.
const MODES: [u8; 10] = [0, 16, 48, 8, 24, 32, 56, 1, 4, 2];
const LARGE: u8 = 128;
const HEAD: usize = 19;

/// Every so many of the edge files, of which there are thousands.
const EDGES_APART: usize = 16;

fn main() {
    let arguments: Vec<String> = std::env::args().collect();
    let [_, folder, count, longest] = arguments.as_slice() else { panic!("usage: seeds FOLDER COUNT LONGEST") };
    let count: u64 = count.parse().expect("a count");
    let longest: usize = longest.parse().expect("a number of bytes");
    for edition in Edition::BOTH {
        let edges = edges_in(edition).into_iter().step_by(EDGES_APART);
        let files = (0..count).flat_map(|seed| every_in(edition, seed)).chain(edges);
        for ((name, file), mode) in files.zip(MODES.iter().cycle()) {
            let mut input = vec![0; HEAD];
            input[0] = mode | if edition == Edition::Large { LARGE } else { 0 };
            input.extend(file);
            if input.len() <= longest {
                fs::write(Path::new(folder).join(format!("{edition:?}-{name}")), input).expect("written");
            }
        }
    }
}
