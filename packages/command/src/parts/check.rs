//! `check`: the check of a kept table.

use super::Part;
use crate::kept::Kept;
use crate::output::Output;
use crate::reason::Reason;
use crate::report::{self, edition_name, forbids_nothing, json_line, Report};
use crate::source::{self, Input, Source};
use crate::status::{Status, Trouble};
use pezvoran::{check, Answer, Edition};

/// The check of a kept table, whoever made it: an accepted one shows that the file is confined
///
/// Prints `accepted`, or `refused NUMBER POSITION` and a line that says why.
#[derive(clap::Args)]
#[command(after_help = "\
Example:
  pezvoran judge --table FILE.table FILE && pezvoran check FILE FILE.table")]
pub struct Check {
    #[command(flatten)]
    pub given: Given,

    /// Print an object of JSON, on one line
    #[arg(long)]
    json: bool,
}

/// A statement file and a table of it.
#[derive(clap::Args)]
pub struct Given {
    /// A statement file; - is standard input
    file: Source,

    /// A table that `judge --table` kept; - is standard input
    table: Source,
}

/// Both as they were read, and what the check says of them.
pub struct Checked<'a> {
    pub file: Input,
    pub table: Kept,
    pub report: Report<'a>,
}

impl Given {
    pub fn sources(&self) -> [&Source; 2] {
        [&self.file, &self.table]
    }

    pub fn check<E: Edition>(&self, output: &Output) -> Result<Checked<'_>, Trouble> {
        source::once(self.sources())?;
        let file = self.file.read_file()?;
        let table = Kept::read::<E>(&self.table)?;
        output.must_differ(&self.file, &file)?;
        output.must_differ(&self.table, &table.input)?;
        let answer = check::<E>(&file.bytes, &table.words);
        let reason = if let Answer::Refused(refusal) = answer { Some(Reason::of::<E>(refusal, &file, Some(&table))) } else { None };
        let forbids_nothing = forbids_nothing::<E>(&file.bytes);
        let report = Report { file: &self.file, table: Some(&self.table), edition: edition_name::<E>(), answer, held: None, reason, forbids_nothing };
        Ok(Checked { file, table, report })
    }

    /// Says trouble with either, to programs as well.
    pub fn trouble(&self, output: &mut Output, json: bool, trouble: &Trouble) -> Result<Status, Trouble> {
        report::trouble(output, json, &self.file, trouble)
    }
}

impl Part for Check {
    fn run<E: Edition>(&self, output: &mut Output) -> Result<Status, Trouble> {
        let report = match self.given.check::<E>(output) {
            Ok(checked) => checked.report,
            Err(trouble) => return self.given.trouble(output, self.json, &trouble),
        };
        report.warn();
        show(&report, self.json, output)
    }
}

/// Prints what the check says.
pub fn show(report: &Report<'_>, json: bool, output: &mut Output) -> Result<Status, Trouble> {
    if json {
        json_line(output, &report.object())?;
    } else {
        report.print(output, "")?;
    }
    Ok(report.status())
}
