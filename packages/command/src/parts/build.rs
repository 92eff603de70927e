//! `build`: text to a statement file.

use super::Part;
use crate::files::keep;
use crate::output::Output;
use crate::reason::{fault, missing, refusal, Reason};
use crate::report::{forbids_nothing, warn_of_nothing};
use crate::source::{Input, Source};
use crate::status::{warn, Status, Trouble};
use crate::text::{parse, Complaint, Parsed, Place};
use pezvoran::format::{records, Kind};
use pezvoran::{Edition, Refusal, FILE_BYTES};
use std::io::{self, Write};
use std::path::{Path, PathBuf};

/// Text to a statement file: what `dump` prints, or bytes as numbers
///
/// A file that a judge would refuse is not written: the place in the text and what to mend are said instead.
#[derive(clap::Args)]
#[command(after_help = "\
Examples:
  pezvoran build FILE.txt -o FILE && pezvoran judge FILE
  pezvoran dump FILE | pezvoran build - | cmp - FILE

A line has a record, such as
  label l=5 type=plain flag=0
  load 7 7 2 class1 10
or bytes as numbers; # begins a comment. Fields stand in the order in which `dump` prints them, with their roles or without. Values are numbers; a type is \
also plain, function or array, a flag built-in, a variable's name none, a key class0 to class7 (all names of a class) or outside0 to outside7 (all others).")]
pub struct Build {
    /// A text; - is standard input
    text: Source,

    /// Write the bytes to this file, whole or not at all, and not to standard output
    #[arg(short, long, value_name = "OUT")]
    output: Option<PathBuf>,

    /// Write the bytes even where a judge would refuse them
    #[arg(long)]
    unchecked: bool,
}

impl Part for Build {
    fn run<E: Edition>(&self, output: &mut Output) -> Result<Status, Trouble> {
        let path = self.output.as_deref().filter(|path| *path != Path::new("-"));
        if path.is_none() && output.is_terminal() {
            return Err(Trouble::of("the bytes are not for a terminal: name a file with -o"));
        }
        let input = self.text.read_text()?;
        output.must_differ(&self.text, &input)?;
        let Parsed { bytes, places } = match parse(&input.bytes) {
            Ok(parsed) => parsed,
            Err(complaints) => return Ok(self.complain(&complaints)),
        };
        if let Some(refusal) = refusal::<E>(&bytes).filter(|_| !self.unchecked) {
            self.say(places.at(to_mend::<E>(refusal, &bytes)), &refused::<E>(refusal, bytes));
            return Ok(Status::Refused);
        }
        if forbids_nothing::<E>(&bytes) {
            warn_of_nothing(&self.text);
        }
        match path {
            Some(path) => keep(path, &bytes, &[&input])?,
            None => output.bytes(&bytes)?,
        }
        Ok(Status::Good)
    }
}

/// So many complaints are enough to begin with.
const COMPLAINTS: usize = 20;

impl Build {
    fn complain(&self, complaints: &[Complaint]) -> Status {
        for complaint in complaints.iter().take(COMPLAINTS) {
            self.say(complaint.place, &complaint.words);
        }
        if complaints.len() > COMPLAINTS {
            warn(format!("{}: {} more lines are wrong", self.text, complaints.len() - COMPLAINTS));
        }
        Status::Trouble
    }

    /// As compilers say it, so that editors find the place.
    fn say(&self, place: Place, words: &str) {
        let _ = writeln!(io::stderr(), "{}:{place}: {words}", self.text);
    }
}

fn refused<E: Edition>(refusal: Refusal, bytes: Vec<u8>) -> String {
    let built = Input { length: Some(bytes.len() as u64), identity: None, bytes };
    format!("refused {} {}: {}", refusal.number, refusal.position, Reason::of_file::<E>(refusal, &built).words)
}

/// The byte to mend: the field, or else the record; for 7 the label that has no function record, for 9 the first byte too many.
fn to_mend<E: Edition>(refusal: Refusal, file: &[u8]) -> usize {
    let position = refusal.position as usize;
    match refusal.number {
        7 => {
            let label = missing::<E>(file).first().copied();
            let declared = records(file).find(|record| record.kind == Kind::Label && record.body.first().copied() == label);
            declared.map_or(position, |record| record.position)
        }
        9 => FILE_BYTES,
        _ => position + fault::<E>(refusal, file).and_then(|fault| fault.field).map_or(0, |field| 1 + field.index),
    }
}
