//! `cite`: the line by which a verdict is cited (docs/TRUST.md).

use super::check::{show, Checked, Given};
use super::Part;
use crate::output::Output;
use crate::report::{json_line, Object};
use crate::status::{warn, Status, Trouble};
use crate::version;
use pezvoran::{verdict, Answer, Edition, Small, Table};
use serde::Serialize;
use sha2::{Digest, Sha256};

/// The line by which to cite that a file is confined, after a check of its table
///
/// Names the verdict, the archive that judged by its SHA-256, the commit and the kit that this command was built from, and file and table by their SHA-256.
/// Whoever has these can repeat the check. A table that is refused is not cited, and nothing is where commit or kit are unknown.
#[derive(clap::Args)]
#[command(after_help = "\
Example:
  pezvoran judge --table FILE.table FILE && pezvoran cite FILE FILE.table")]
pub struct Cite {
    #[command(flatten)]
    given: Given,

    /// Print an object of JSON, on one line
    #[arg(long)]
    json: bool,
}

impl Part for Cite {
    fn run<E: Edition>(&self, output: &mut Output) -> Result<Status, Trouble> {
        let checked = match self.given.check::<E>(output) {
            Ok(checked) => checked,
            Err(trouble) => return self.given.trouble(output, self.json, &trouble),
        };
        checked.report.warn();
        if checked.report.status() != Status::Good {
            return show(&checked.report, self.json, output);
        }
        let citation = match cited::<E>(&checked) {
            Ok(citation) => citation,
            Err(trouble) => return self.given.trouble(output, self.json, &trouble),
        };
        if self.json {
            json_line(output, &citation)?;
        } else {
            output.line(format_args!("{}", citation.citation))?;
        }
        Ok(Status::Good)
    }
}

/// An accepted table shows that the file is confined; the count of facts is the verdict's.
fn cited<'a, E: Edition>(checked: &'a Checked<'a>) -> Result<Citation<'a>, Trouble> {
    must_be_known(version::COMMIT, version::KIT)?;
    let answer = verdict(&checked.file.bytes, &mut Table::<E>::new());
    let facts = facts(answer)?;
    if version::is_changed() {
        warn("the command was built from sources that differ from the commit: nobody else has these");
    }
    Ok(Citation::of::<E>(answer, facts, checked))
}

/// Without these nobody else could repeat it.
fn must_be_known(commit: &str, kit: &str) -> Result<(), Trouble> {
    if commit == "unknown" || kit == "unknown" {
        return Err(Trouble::of(
            "nothing is cited, since commit or kit of the archives are unknown: build the command where git and rt can be asked and with the archives of the \
             repository, or set PEZVORAN_COMMIT and PEZVORAN_KIT",
        ));
    }
    Ok(())
}

/// The count of a verdict that is as the check says.
fn facts(answer: Answer) -> Result<u32, Trouble> {
    match answer {
        Answer::Confined { facts } => Ok(facts),
        _ => Err(Trouble::of(format!("nothing is cited: the check accepts the table, but the verdict is {answer}"))),
    }
}

#[derive(Serialize)]
struct Citation<'a> {
    #[serde(flatten)]
    object: Object<'a>,
    /// Of the archive that judged.
    archive_sha256: &'static str,
    commit: &'static str,
    /// Whether the command was built from sources that differ from the commit.
    changed: bool,
    kit: &'static str,
    file_sha256: String,
    table_sha256: String,
    /// The line.
    citation: String,
}

impl Citation<'_> {
    fn of<'a, E: Edition>(answer: Answer, facts: u32, checked: &'a Checked<'a>) -> Citation<'a> {
        let (file_sha256, table_sha256) = (sha256(&checked.file.bytes), sha256(&checked.table.input.bytes));
        let archive_sha256 = version::archive_sha256::<E>();
        let edition = if E::LABELS == Small::LABELS { "" } else { " in the large edition" };
        let citation = format!(
            "{answer}{edition} by Pezvoran's archive with SHA-256 {archive_sha256}, at commit {}, proved with {}, for the statement file with SHA-256 \
             {file_sha256} and the table with SHA-256 {table_sha256}",
            version::SOURCES,
            version::KIT
        );
        Citation {
            object: Object { outcome: "confined", facts: Some(facts), ..checked.report.object() },
            archive_sha256,
            commit: version::COMMIT,
            changed: version::is_changed(),
            kit: version::KIT,
            file_sha256,
            table_sha256,
            citation,
        }
    }
}

fn sha256(bytes: &[u8]) -> String {
    Sha256::digest(bytes).iter().map(|byte| format!("{byte:02x}")).collect()
}

#[cfg(test)]
mod tests {
    use super::*;
    use pezvoran::Refusal;

    #[test]
    fn only_a_confined_file_is_cited() {
        assert!(matches!(facts(Answer::Confined { facts: 48 }), Ok(48)));
        let refused = Answer::Refused(Refusal { number: 1, position: 0, guest: None });
        for answer in [Answer::Leaks { label: 5, guest: 3, facts: 48 }, Answer::Accepted { count: 0 }, refused, Answer::Choice(0), Answer::NoneHelps]
        {
            assert!(facts(answer).is_err(), "{answer}");
        }
    }

    #[test]
    fn nothing_is_cited_without_commit_and_kit() {
        assert!(must_be_known("c0ffee", "a kit").is_ok());
        assert!(must_be_known("unknown", "a kit").is_err());
        assert!(must_be_known("c0ffee", "unknown").is_err());
    }
}
