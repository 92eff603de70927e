//! A file taken apart: its records, and what they declare or why they are refused.

use super::{Fault, Kind, Sheet};
use crate::{Edition, FILE_BYTES};

/// A whole record.
#[derive(Clone, Copy, Debug, PartialEq, Eq)]
pub struct Record<'a> {
    /// Counted from 1.
    pub number: usize,
    /// The place of its kind byte in the file.
    pub position: usize,
    pub kind: Kind,
    /// One byte for each field.
    pub body: &'a [u8],
}

/// The whole records of a file, from the first on, whatever their fields are. It ends at the first byte that is no kind or begins a record that the file cuts
/// short; [`Records::rest`] then has what is left, and nothing where the file ends with a whole record.
pub fn records(file: &[u8]) -> Records<'_> {
    Records { rest: file, position: 0, number: 0 }
}

/// See [`records`].
#[derive(Clone, Debug)]
pub struct Records<'a> {
    rest: &'a [u8],
    position: usize,
    number: usize,
}

impl<'a> Records<'a> {
    /// The bytes behind the records given so far.
    pub fn rest(&self) -> &'a [u8] {
        self.rest
    }

    /// The place of these bytes in the file.
    pub fn position(&self) -> usize {
        self.position
    }
}

impl<'a> Iterator for Records<'a> {
    type Item = Record<'a>;

    fn next(&mut self) -> Option<Record<'a>> {
        let (&byte, behind) = self.rest.split_first()?;
        let kind = Kind::of_byte(byte)?;
        let body = behind.get(..kind.body_length())?;
        self.number += 1;
        let record = Record { number: self.number, position: self.position, kind, body };
        self.position += 1 + body.len();
        self.rest = &behind[body.len()..];
        Some(record)
    }
}

/// What a whole file declares, or the fault for which both operations refuse it. (8, a table that is too short, is about no file.)
pub fn read<E: Edition>(file: &[u8]) -> Result<Sheet<E>, Fault> {
    if file.len() > FILE_BYTES {
        return Err(Fault::too_long(file.len()));
    }
    let mut sheet = Sheet::new();
    let mut records = records(file);
    for record in &mut records {
        sheet.take(record.kind.byte(), record.body)?;
    }
    if let [kind, body @ ..] = records.rest() {
        sheet.take(*kind, body)?;
    }
    sheet.complete()?;
    Ok(sheet)
}
