//! Tables kept in files: the words of a table, low byte first, as `judge --table` and the C client write them.

use crate::report::edition_name;
use crate::source::{Input, Source};
use crate::status::Trouble;
use pezvoran::{Edition, Large, Table};

const WORD_BYTES: usize = u64::BITS as usize / 8;

/// A kept table. It may be too short, which the check refuses.
pub struct Kept {
    pub words: Vec<u64>,
    pub input: Input,
}

impl Kept {
    pub fn read<E: Edition>(source: &Source) -> Result<Kept, Trouble> {
        let full = E::TABLE_WORDS * WORD_BYTES;
        let input = source.read(full)?;
        let length = input.bytes.len();
        if length > full || length % WORD_BYTES != 0 {
            return Err(Trouble::of(format!("{source}: is no table of the {} edition: {}", edition_name::<E>(), misfit::<E>(&input))));
        }
        let words = input.bytes.chunks_exact(WORD_BYTES).map(|word| u64::from_le_bytes(word.try_into().expect("eight bytes")));
        Ok(Kept { words: words.collect(), input })
    }

    /// The table, where it is full.
    pub fn table<E: Edition>(&self) -> Option<Table<E>> {
        Table::from_bytes(&self.input.bytes)
    }
}

/// Why the bytes are no words of a table, or too many.
fn misfit<E: Edition>(input: &Input) -> String {
    let full = E::TABLE_WORDS * WORD_BYTES;
    let length = input.bytes.len();
    if length <= full {
        return format!("it has {length} bytes, which are no whole words of {WORD_BYTES}; a full one has {full}");
    }
    let large = Large::TABLE_WORDS * WORD_BYTES;
    let hint = if input.length == Some(large as u64) { ". It is as long as a table of the large edition: try --large" } else { "" };
    format!("it has more than {full} bytes{hint}")
}
