//! An answer as it is shown: the lines that the program `verdict` prints, with a refusal's reason in words; or an object of JSON.

use crate::output::Output;
use crate::reason::Reason;
use crate::source::Source;
use crate::status::{warn, Status, Trouble};
use pezvoran::format::read;
use pezvoran::{Answer, Edition, Small};
use serde::Serialize;

pub fn edition_name<E: Edition>() -> &'static str {
    if E::LABELS == Small::LABELS {
        "small"
    } else {
        "large"
    }
}

/// The answer of an operation, with what is shown beside it.
pub struct Report<'a> {
    pub file: &'a Source,
    pub table: Option<&'a Source>,
    pub edition: &'static str,
    pub answer: Answer,
    /// What the guest may hold, beside a verdict.
    pub held: Option<Vec<u8>>,
    /// Beside a refusal.
    pub reason: Option<Reason>,
    pub forbids_nothing: bool,
}

impl Report<'_> {
    /// Says on standard error where the answer says little.
    pub fn warn(&self) {
        if self.forbids_nothing {
            warn_of_nothing(self.file);
        }
    }

    pub fn status(&self) -> Status {
        match self.answer {
            Answer::Confined { .. } | Answer::Accepted { .. } => Status::Good,
            Answer::Leaks { .. } => Status::Leaks,
            Answer::Refused(_) => Status::Refused,
            Answer::Choice(_) | Answer::NoneHelps => Status::Trouble,
        }
    }

    /// The lines, each with `before` in front of it.
    pub fn print(&self, output: &mut Output, before: &str) -> Result<(), Trouble> {
        output.painted(self.status(), format_args!("{before}{}", self.answer))?;
        if let Some(held) = &self.held {
            output.line(format_args!("{before}guest{}", spaced(held)))?;
        }
        if let Some(reason) = &self.reason {
            output.line(format_args!("{before}{}", reason.words))?;
        }
        Ok(())
    }

    /// The object of JSON, to which others may be added.
    pub fn object(&self) -> Object<'_> {
        let mut object = Object {
            file: self.file.name(),
            table: self.table.map(Source::name),
            edition: Some(self.edition),
            held: self.held.as_deref(),
            reason: self.reason.as_ref(),
            ..Object::default()
        };
        match self.answer {
            Answer::Confined { facts } => (object.outcome, object.facts) = ("confined", Some(facts)),
            Answer::Leaks { label, guest, facts } => {
                (object.outcome, object.label, object.guest, object.facts) = ("leaks", Some(label), Some(guest), Some(facts));
            }
            Answer::Accepted { .. } => object.outcome = "accepted",
            Answer::Refused(refusal) => {
                (object.outcome, object.number, object.position) = ("refused", Some(refusal.number), Some(refusal.position));
                object.guest = refusal.guest;
                object.label = refusal.guest.map(|_| refusal.position as u8);
            }
            Answer::Choice(_) | Answer::NoneHelps => object.outcome = "trouble",
        }
        object
    }
}

/// Whether a file that is not refused forbids nothing: then it is confined, whatever else it says.
pub fn forbids_nothing<E: Edition>(file: &[u8]) -> bool {
    read::<E>(file).is_ok_and(|sheet| sheet.forbidden().next().is_none())
}

pub fn warn_of_nothing(file: &Source) {
    warn(format_args!("{file}: forbids nothing, and is confined whatever else it says"));
}

/// Numbers with a space before each.
pub fn spaced(labels: &[u8]) -> String {
    labels.iter().map(|label| format!(" {label}")).collect()
}

/// What is said to programs of a file, on one line.
#[derive(Default, Serialize)]
pub struct Object<'a> {
    pub file: String,
    #[serde(skip_serializing_if = "Option::is_none")]
    pub table: Option<String>,
    #[serde(skip_serializing_if = "Option::is_none")]
    pub edition: Option<&'static str>,
    pub outcome: &'static str,
    #[serde(skip_serializing_if = "Option::is_none")]
    pub facts: Option<u32>,
    #[serde(skip_serializing_if = "Option::is_none")]
    pub label: Option<u8>,
    #[serde(skip_serializing_if = "Option::is_none")]
    pub guest: Option<u8>,
    #[serde(skip_serializing_if = "Option::is_none")]
    pub held: Option<&'a [u8]>,
    #[serde(skip_serializing_if = "Option::is_none")]
    pub number: Option<u8>,
    #[serde(skip_serializing_if = "Option::is_none")]
    pub position: Option<u64>,
    #[serde(flatten)]
    pub reason: Option<&'a Reason>,
}

/// The object for trouble with a file.
#[derive(Serialize)]
struct Troubled {
    file: String,
    outcome: &'static str,
    words: String,
}

/// Says trouble with a file or with what belongs to it, to programs as well.
pub fn trouble(output: &mut Output, json: bool, file: &Source, trouble: &Trouble) -> Result<Status, Trouble> {
    if json {
        json_line(output, &Troubled { file: file.name(), outcome: "trouble", words: trouble.to_string() })?;
    }
    Ok(trouble.say())
}

pub fn json_line(output: &mut Output, object: &impl Serialize) -> Result<(), Trouble> {
    let line = serde_json::to_string(object).map_err(|error| Trouble::of(error.to_string()))?;
    output.line(format_args!("{line}"))
}
