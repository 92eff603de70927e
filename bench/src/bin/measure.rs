//! Times verdict and check of the archive, in the edition that the argument names, on what standard input has: a finished table
//! and then a file. Writes words in little-endian order: nanoseconds and answer of the check, the same of the verdict, and the
//! table that the verdict left.

use bench::archive::{best, check, verdict, words};
use bench::edition::named;
use std::io::{Read, Write};
use std::time::Duration;

const TIME: Duration = Duration::from_millis(100);

fn main() {
    let edition = std::env::args().nth(1).and_then(|name| named(&name)).expect("an edition");
    let mut input = Vec::new();
    std::io::stdin().read_to_end(&mut input).expect("standard input can be read");
    let (table, file) = input.split_at(8 * edition.table_words());
    let mut table = words(table);
    let mut answer = 0;
    let time = best(TIME, || answer = check(edition, file, &table));
    write(&[time.as_nanos() as u64, answer]);
    let time = best(TIME, || answer = verdict(edition, file, &mut table));
    write(&[time.as_nanos() as u64, answer]);
    write(&table);
}

fn write(words: &[u64]) {
    let bytes: Vec<u8> = words.iter().flat_map(|word| word.to_le_bytes()).collect();
    let mut output = std::io::stdout();
    output.write_all(&bytes).and_then(|()| output.flush()).expect("standard output can be written");
}
