//! A statement file as text. A line has a record, its kind by name and then its fields in order, each with its role before it or not; or it has bytes as
//! decimal numbers, which may be parts of records. `#` begins a comment.
//!
//! ```text
//! label l=5 type=plain flag=0
//! label 6 function 0
//! load k=7 y=7 object=2 key=class1 w=10
//! 6 3   # the guest is granted variable 3
//! ```

mod reading;
mod spelling;
mod writing;

pub use reading::{parse, Complaint, Parsed};
pub use writing::{record_line, rest_lines};

use std::borrow::Cow;
use std::fmt;

/// A place in a text, both counted from 1, columns in characters.
#[derive(Clone, Copy, Debug, PartialEq, Eq)]
pub struct Place {
    pub line: usize,
    pub column: usize,
}

impl fmt::Display for Place {
    fn fmt(&self, f: &mut fmt::Formatter<'_>) -> fmt::Result {
        write!(f, "{}:{}", self.line, self.column)
    }
}

/// The lines with their numbers, from 1. Lines may end as on Windows, and a mark of the byte order before the first is passed over.
pub fn numbered_lines(text: &[u8]) -> impl Iterator<Item = (usize, Cow<'_, str>)> {
    let text = text.strip_prefix("\u{feff}".as_bytes()).unwrap_or(text);
    (1..).zip(text.split(|&byte| byte == b'\n').map(|line| String::from_utf8_lossy(line)))
}
