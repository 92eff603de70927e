//! `judge`: the verdict on statement files.

use super::Part;
use crate::files::keep;
use crate::output::Output;
use crate::progress::Progress;
use crate::reason::Reason;
use crate::report::{self, edition_name, forbids_nothing, json_line, Report};
use crate::source::{self, Source};
use crate::status::{Status, Trouble};
use pezvoran::{verdict, Answer, Edition, Table};
use std::path::{Path, PathBuf};

/// The verdict on statement files: confined, leaks or refused
///
/// Prints `confined FACTS` or `leaks LABEL FACTS` and a line with the labels that the guest may hold, or `refused NUMBER POSITION` and a line that says why.
/// Of several files each line has the file's name before it.
#[derive(clap::Args)]
#[command(after_help = "\
Examples:
  pezvoran judge FILE
  pezvoran judge --table FILE.table FILE    keeps the finished table, for check, table and cite
  pezvoran judge --json hosts/*             one object of JSON for each file
  pezvoran judge - < FILE")]
pub struct Judge {
    /// Statement files; - is standard input
    #[arg(required = true, value_name = "FILE")]
    files: Vec<Source>,

    /// Keep the finished table in this file, which is written whole or not at all; a refusal leaves it as it is
    #[arg(long, value_name = "OUT")]
    table: Option<PathBuf>,

    /// Print an object of JSON for each file, on one line
    #[arg(long)]
    json: bool,
}

impl Part for Judge {
    fn run<E: Edition>(&self, output: &mut Output) -> Result<Status, Trouble> {
        source::once(&self.files)?;
        if self.table.is_some() && self.files.len() > 1 {
            return Err(Trouble::of("--table keeps one table: give one file with it"));
        }
        if self.table.as_deref() == Some(Path::new("-")) {
            return Err(Trouble::of("--table needs a file: the table would be among the lines of the verdict"));
        }
        let progress = Progress::of(self.files.len());
        let mut worst = Status::Good;
        for file in &self.files {
            let judged = self.judge::<E>(file, output);
            worst = worst.max(progress.show(|| self.show(file, judged, output))?);
        }
        Ok(worst)
    }
}

impl Judge {
    fn judge<'a, E: Edition>(&self, file: &'a Source, output: &Output) -> Result<Report<'a>, Trouble> {
        let input = file.read_file()?;
        output.must_differ(file, &input)?;
        let mut table = Table::<E>::new();
        let answer = verdict(&input.bytes, &mut table);
        let reason = if let Answer::Refused(refusal) = answer { Some(Reason::of::<E>(refusal, &input, None)) } else { None };
        if let (Some(path), None) = (&self.table, &reason) {
            keep(path, &table.to_bytes(), &[&input])?;
        }
        let held = reason.is_none().then(|| table.guest().collect());
        let forbids_nothing = forbids_nothing::<E>(&input.bytes);
        Ok(Report { file, table: None, edition: edition_name::<E>(), answer, held, reason, forbids_nothing })
    }

    fn show(&self, file: &Source, judged: Result<Report<'_>, Trouble>, output: &mut Output) -> Result<Status, Trouble> {
        if let Ok(report) = &judged {
            report.warn();
        }
        let status = match judged {
            Err(trouble) => report::trouble(output, self.json, file, &trouble)?,
            Ok(report) if self.json => {
                json_line(output, &report.object())?;
                report.status()
            }
            Ok(report) => {
                let before = if self.files.len() > 1 { format!("{file}: ") } else { String::new() };
                report.print(output, &before)?;
                report.status()
            }
        };
        output.flush()?;
        Ok(status)
    }
}
