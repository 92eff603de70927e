//! What is wrong with a record or a file, in numbers and in words.

use super::{Class, Kind};
use crate::{Refusal, FILE_BYTES};
use std::fmt;

/// Why, and where, a statement file was refused: the number and the position are those of the operations.
#[derive(Clone, Debug, PartialEq, Eq)]
pub struct Fault {
    /// 1 to 7, or 9.
    pub number: u8,
    /// The record's first byte for 1 to 6, the file length for 7, 0 for 9.
    pub position: usize,
    /// The record, counted from 1, for 1 to 6.
    pub record: Option<usize>,
    /// The kind of the record, for 2 to 6.
    pub kind: Option<Kind>,
    /// The field, for 3 to 6.
    pub field: Option<BadField>,
    /// The rest in words. Where there is a field they go on from its value: "which is an array; a plain label from 5 up is wanted".
    pub why: String,
}

/// The field for which a record was refused.
#[derive(Clone, Copy, Debug, PartialEq, Eq)]
pub struct BadField {
    /// Its place in the body, from 0.
    pub index: usize,
    pub role: &'static str,
    pub class: Class,
    pub value: u8,
}

impl Fault {
    /// The refusal that the operations answer.
    pub fn refusal(&self) -> Refusal {
        Refusal { number: self.number, position: self.position as u64, guest: None }
    }

    pub(super) fn too_long(length: usize) -> Fault {
        Fault::of_file(9, 0, format!("the file has {length} bytes; {FILE_BYTES} at most are wanted"))
    }

    pub(super) fn missing(length: usize, labels: &[u8]) -> Fault {
        let listed: Vec<String> = labels.iter().map(u8::to_string).collect();
        let listed = listed.join(", ");
        let why = if labels.len() == 1 {
            format!("function label {listed} has no function record")
        } else {
            format!("function labels {listed} have no function record")
        };
        Fault::of_file(7, length, why)
    }

    fn of_file(number: u8, position: usize, why: String) -> Fault {
        Fault { number, position, record: None, kind: None, field: None, why }
    }
}

/// One line: where, which field, what it is and what is wanted.
impl fmt::Display for Fault {
    fn fmt(&self, f: &mut fmt::Formatter<'_>) -> fmt::Result {
        if let Some(record) = self.record {
            write!(f, "record {record} at byte {}", self.position)?;
            if let Some(kind) = self.kind {
                write!(f, ", {}", kind.name())?;
            }
            f.write_str(": ")?;
        }
        if let Some(field) = self.field {
            write!(f, "field {} is {}, ", field.role, field.value)?;
        }
        f.write_str(&self.why)
    }
}

impl std::error::Error for Fault {}
