//! Writes the cases of the Rattle program `edges` and what it must print: good and bad values side by side for every field of every kind, the value of a
//! return also at the top level, a profile also where one stands, every cut record, a function left out, and files at the size limit, in the small edition
//! and then in the large one. Run from this package's folder.

use second::edition::Edition;
use second::generate::edges;
use second::reader::read_in;
use std::fs;

/// The byte values on both sides of every border that document 01 and requests 01 and 04 draw.
const BORDERS: [u8; 26] =
    [0, 1, 2, 3, 4, 5, 6, 7, 8, 9, 10, 11, 12, 13, 31, 32, 63, 64, 127, 128, 135, 136, 143, 144, 254, 255];

fn line(edition: Edition, file: &[u8]) -> String {
    match read_in(edition, file) {
        Ok(_) => "read\n".to_string(),
        Err(r) => format!("refused {} {}\n", r.number, r.position),
    }
}

fn wanted(name: &str) -> bool {
    let parts: Vec<&str> = name.split('-').collect();
    match parts.as_slice() {
        ["edge", "kind", kind] => kind.parse::<u8>().is_ok_and(|k| k < 30 || k == 255),
        ["edge", _, "due"] | ["edge", _, "cut", _] => true,
        ["edge", _, _, value] | ["edge", _, _, value, "top" | "again"] => {
            value.parse::<u8>().is_ok_and(|v| BORDERS.contains(&v))
        }
        _ => false,
    }
}

fn main() -> std::io::Result<()> {
    let mut files: Vec<Vec<u8>> = edges().into_iter().filter(|(name, _)| wanted(name)).map(|(_, file)| file).collect();
    files.push(Vec::new());
    let mut cases = Vec::new();
    for file in &files {
        cases.extend_from_slice(&(file.len() as u16).to_le_bytes());
        cases.extend_from_slice(file);
    }
    files.extend([32_767, 32_768, 32_769].map(|length| vec![3; length]));
    let mut lines = String::new();
    for edition in Edition::BOTH {
        for file in &files {
            lines += &line(edition, file);
        }
    }
    fs::write("../../crates/edges/data/cases", &cases)?;
    fs::write("../../crates/edges/stdout", &lines)?;
    println!("{} bytes, {} lines", cases.len(), lines.lines().count());
    Ok(())
}
