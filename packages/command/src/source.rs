//! What is named on the command line, and reading it to its end.

use crate::files::Identity;
use crate::start;
use crate::status::{warn, Trouble};
use pezvoran::FILE_BYTES;
use std::ffi::OsString;
use std::fmt::{self, Display, Write};
use std::fs::File;
use std::io::{self, ErrorKind, Read};
use std::os::fd::AsFd;
use std::path::PathBuf;
use std::thread::sleep;
use std::time::Duration;

/// The longest text that is read: no statement file needs one that is longer, if its comments do not.
const TEXT_BYTES: usize = 1 << 24;

/// A file, or standard input.
#[derive(Clone, Debug, PartialEq, Eq)]
pub enum Source {
    Standard,
    Path(PathBuf),
}

impl From<OsString> for Source {
    fn from(word: OsString) -> Source {
        if word == "-" {
            Source::Standard
        } else {
            Source::Path(word.into())
        }
    }
}

impl Source {
    /// As it was named, for programs.
    pub fn name(&self) -> String {
        match self {
            Source::Standard => "-".into(),
            Source::Path(path) => path.to_string_lossy().into(),
        }
    }
}

/// For people, on one line whatever characters the name has.
impl Display for Source {
    fn fmt(&self, f: &mut fmt::Formatter<'_>) -> fmt::Result {
        match self {
            Source::Standard => f.write_str("standard input"),
            Source::Path(path) => one_line(&path.to_string_lossy(), f),
        }
    }
}

fn one_line(text: &str, f: &mut fmt::Formatter<'_>) -> fmt::Result {
    text.chars().try_for_each(|c| if c.is_control() { write!(f, "{}", c.escape_default()) } else { f.write_char(c) })
}

/// Bytes that were read to their end, or to one byte more than was asked for.
pub struct Input {
    pub bytes: Vec<u8>,
    /// How long it is, where the system says so.
    pub length: Option<u64>,
    /// Which file it is, if it is one.
    pub identity: Option<Identity>,
}

impl Source {
    /// Reads to the end, but no more than a byte above `most`: what is longer can be told from what is not, and takes no memory without bound.
    pub fn read(&self, most: usize) -> Result<Input, Trouble> {
        let trouble = |error: io::Error| Trouble::with(self, &error);
        let mut file = self.open().map_err(trouble)?;
        let about = file.metadata().map_err(trouble)?;
        if about.is_dir() {
            return Err(Trouble::of(format!("{self}: is a directory")));
        }
        let bytes = read_at_most(&mut file, most + 1).map_err(trouble)?;
        Ok(Input { bytes, length: about.is_file().then_some(about.len()), identity: Identity::of(&about) })
    }

    /// Reads a statement file. One that is too long is refused 9 as soon as a byte more than is allowed has been read, whatever follows.
    pub fn read_file(&self) -> Result<Input, Trouble> {
        let input = self.read(FILE_BYTES)?;
        if *self == Source::Standard && input.bytes.is_empty() {
            warn("standard input is empty, which is a legal statement file; did what feeds it fail?");
        }
        Ok(input)
    }

    /// Reads a text, of a length that is enough for any.
    pub fn read_text(&self) -> Result<Input, Trouble> {
        let input = self.read(TEXT_BYTES)?;
        if input.bytes.len() > TEXT_BYTES {
            return Err(Trouble::of(format!("{self}: is longer than {TEXT_BYTES} bytes")));
        }
        Ok(input)
    }

    /// Standard input is read from a copy of its descriptor: the standard library takes one that cannot be read for an empty file.
    fn open(&self) -> io::Result<File> {
        match self {
            Source::Path(path) => File::open(path),
            Source::Standard => {
                start::must_be_open(0)?;
                io::stdin().as_fd().try_clone_to_owned().map(File::from)
            }
        }
    }
}

/// Standard input can be read once.
pub fn once<'a>(sources: impl IntoIterator<Item = &'a Source>) -> Result<(), Trouble> {
    if sources.into_iter().filter(|source| **source == Source::Standard).count() > 1 {
        return Err(Trouble::of("- is named more than once: standard input can be read only once"));
    }
    Ok(())
}

/// Reads to the end or to `most` bytes. A read that a signal interrupts is tried again, and so is one that finds nothing yet.
fn read_at_most(file: &mut File, most: usize) -> io::Result<Vec<u8>> {
    let (mut bytes, mut part) = (Vec::new(), [0; 1 << 14]);
    while bytes.len() < most {
        let room = part.len().min(most - bytes.len());
        match file.read(&mut part[..room]) {
            Ok(0) => break,
            Ok(read) => bytes.extend_from_slice(&part[..read]),
            Err(error) if error.kind() == ErrorKind::Interrupted => {}
            Err(error) if error.kind() == ErrorKind::WouldBlock => sleep(Duration::from_millis(1)),
            Err(error) => return Err(error),
        }
    }
    Ok(bytes)
}
