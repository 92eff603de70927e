//! `dump`: a statement file as text.

use super::Part;
use crate::names::Names;
use crate::output::Output;
use crate::reason::{refusal, Reason};
use crate::report::{self, edition_name, json_line};
use crate::source::{self, Input, Source};
use crate::status::{warn, Status, Trouble};
use crate::text::{record_line, rest_lines};
use pezvoran::format::{records, Record};
use pezvoran::{Edition, Refusal, FILE_BYTES};
use serde::Serialize;
use serde_json::{Map, Value};

/// A statement file as text: each record with its kind, its fields by role and its place
///
/// `build` makes the same bytes of it, with `--unchecked` of any file. Where a judge would refuse the file, a comment says so at the place, and so does
/// standard error. A file that is too long is not shown.
#[derive(clap::Args)]
#[command(after_help = "\
Examples:
  pezvoran dump FILE
  pezvoran dump --names NAMES FILE | less

NAMES has lines such as `label 5 the journal`, `variable 2 journal` and `name 4 listener`; # begins a comment.")]
pub struct Dump {
    /// A statement file; - is standard input
    file: Source,

    /// What variables, labels and names are called, to be shown in comments
    #[arg(long, value_name = "NAMES")]
    names: Option<Source>,

    /// Print an object of JSON, on one line
    #[arg(long)]
    json: bool,
}

impl Part for Dump {
    fn run<E: Edition>(&self, output: &mut Output) -> Result<Status, Trouble> {
        let (input, names) = match self.read(output) {
            Ok(read) => read,
            Err(trouble) => return report::trouble(output, self.json, &self.file, &trouble),
        };
        let refused = Refused::of::<E>(&input);
        let shown = if input.bytes.len() > FILE_BYTES { &[] } else { &input.bytes[..] };
        if self.json {
            json_line(output, &Dumped::of::<E>(&self.file, shown, refused.as_ref()))?;
        } else {
            text(shown, refused.as_ref(), &names, output)?;
        }
        Ok(refused.map_or(Status::Good, |refused| {
            warn(format!("{}: {}", self.file, refused.words()));
            Status::Refused
        }))
    }
}

impl Dump {
    fn read(&self, output: &Output) -> Result<(Input, Names), Trouble> {
        source::once(self.names.iter().chain([&self.file]))?;
        let names = Names::read(self.names.as_ref())?;
        let input = self.file.read_file()?;
        output.must_differ(&self.file, &input)?;
        Ok((input, names))
    }
}

/// Why a judge would refuse the file.
#[derive(Serialize)]
struct Refused {
    number: u8,
    position: u64,
    #[serde(flatten)]
    reason: Reason,
}

impl Refused {
    fn of<E: Edition>(input: &Input) -> Option<Refused> {
        let refusal = refusal::<E>(&input.bytes)?;
        let Refusal { number, position, .. } = refusal;
        Some(Refused { number, position, reason: Reason::of::<E>(refusal, input, None) })
    }

    fn words(&self) -> String {
        format!("refused {} {}: {}", self.number, self.position, self.reason.words)
    }
}

fn text(file: &[u8], refused: Option<&Refused>, names: &Names, output: &mut Output) -> Result<(), Trouble> {
    let comment = |position, output: &mut Output| match refused.filter(|refused| refused.position == position as u64) {
        Some(refused) => output.line(format_args!("# {}", refused.words())),
        None => Ok(()),
    };
    let mut records = records(file);
    for record in &mut records {
        comment(record.position, output)?;
        output.line(format_args!("{}", record_line(&record, names)))?;
    }
    comment(records.position(), output)?;
    rest_lines(records.rest()).try_for_each(|line| output.line(format_args!("{line}")))
}

/// The file for programs.
#[derive(Serialize)]
struct Dumped<'a> {
    file: String,
    edition: &'static str,
    records: Vec<Listed>,
    /// The bytes behind the last whole record.
    rest: &'a [u8],
    #[serde(skip_serializing_if = "Option::is_none")]
    refused: Option<&'a Refused>,
}

#[derive(Serialize)]
struct Listed {
    record: usize,
    position: usize,
    kind: &'static str,
    fields: Map<String, Value>,
}

impl Dumped<'_> {
    fn of<'a, E: Edition>(source: &Source, file: &'a [u8], refused: Option<&'a Refused>) -> Dumped<'a> {
        let mut listing = records(file);
        let records = (&mut listing).map(|record| listed(&record)).collect();
        Dumped { file: source.name(), edition: edition_name::<E>(), records, rest: listing.rest(), refused }
    }
}

fn listed(record: &Record<'_>) -> Listed {
    let fields = record.kind.fields().iter().zip(record.body).map(|(field, &byte)| (field.role.to_string(), byte.into()));
    Listed { record: record.number, position: record.position, kind: record.kind.name(), fields: fields.collect() }
}
