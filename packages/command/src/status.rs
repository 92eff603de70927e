//! How the command ends: its exit status, and what may keep it from an answer.

use crate::start;
use std::fmt::{self, Display};
use std::io::{self, Write};
use std::process::ExitCode;

/// The exit status; of several files the worst counts.
#[derive(Clone, Copy, Debug, PartialEq, Eq, PartialOrd, Ord)]
#[repr(u8)]
pub enum Status {
    /// Confined, accepted or done.
    Good = 0,
    Leaks = 1,
    Refused = 2,
    Trouble = 3,
}

impl From<Status> for ExitCode {
    fn from(status: Status) -> ExitCode {
        ExitCode::from(status as u8)
    }
}

/// What keeps the command from an answer.
#[derive(Debug)]
pub enum Trouble {
    /// In words.
    Said(String),
    /// Nobody reads what is written any more: the command ends quietly, as other tools do in a pipe.
    Unread,
}

impl Trouble {
    pub fn of(text: impl Into<String>) -> Trouble {
        Trouble::Said(text.into())
    }

    /// Trouble with what is called so.
    pub fn with(what: impl Display, error: &io::Error) -> Trouble {
        Trouble::Said(format!("{what}: {}", plain(error)))
    }

    /// Says it on standard error.
    pub fn say(&self) -> Status {
        if let Trouble::Said(text) = self {
            warn(text);
        }
        Status::Trouble
    }
}

impl Display for Trouble {
    fn fmt(&self, f: &mut fmt::Formatter<'_>) -> fmt::Result {
        match self {
            Trouble::Said(text) => f.write_str(text),
            Trouble::Unread => f.write_str("nobody reads the output"),
        }
    }
}

/// A line on standard error; where that cannot be written either, there is nobody to tell.
pub fn warn(text: impl Display) {
    let _ = writeln!(io::stderr(), "pezvoran: {text}");
}

/// The system's words for an error, without its number.
pub fn plain(error: &io::Error) -> String {
    let words = error.to_string();
    words.split(" (os error").next().unwrap_or_default().to_string()
}

/// What clap says instead of arguments: help and version, which were asked for, or what is wrong with the usage.
pub fn of_usage(usage: &clap::Error) -> Result<Status, Trouble> {
    let (stream, name, status) = if usage.use_stderr() { (2, "standard error", Status::Trouble) } else { (1, "standard output", Status::Good) };
    match start::must_be_open(stream).and_then(|()| usage.print()) {
        Ok(()) => Ok(status),
        Err(error) if error.kind() == io::ErrorKind::BrokenPipe => Err(Trouble::Unread),
        Err(error) => Err(Trouble::with(name, &error)),
    }
}
