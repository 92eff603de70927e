//! The slowest files that the search has found in each edition, kept in the folder `slowest`.

use crate::edition;
use second::Edition;
use std::path::Path;

const FOLDER: &str = concat!(env!("CARGO_MANIFEST_DIR"), "/slowest");

/// The edition's files, with their names, in the order of the names.
pub fn read(edition: Edition) -> Vec<(String, Vec<u8>)> {
    let Ok(entries) = std::fs::read_dir(FOLDER) else { return Vec::new() };
    let mut files: Vec<(String, Vec<u8>)> = entries
        .map(|entry| entry.expect("the folder can be read").path())
        .filter(|path| path.extension().is_some_and(|extension| extension == "bin"))
        .map(|path| {
            let name = path.file_stem().expect("a file has a name").to_string_lossy().into_owned();
            (name, std::fs::read(path).expect("the file can be read"))
        })
        .filter(|(name, _)| name.starts_with(edition::name(edition)))
        .collect();
    files.sort();
    files
}

/// Puts these files in the place of the edition's.
pub fn write(edition: Edition, files: impl Iterator<Item = Vec<u8>>) {
    std::fs::create_dir_all(FOLDER).expect("the folder can be made");
    for (i, file) in files.enumerate() {
        let path = Path::new(FOLDER).join(format!("{}-{}.bin", edition::name(edition), i + 1));
        std::fs::write(path, file).expect("the file can be written");
    }
}
