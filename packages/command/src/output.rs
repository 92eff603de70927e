//! Standard output, with colours on a terminal.

use crate::files::Identity;
use crate::source::{Input, Source};
use crate::start;
use crate::status::{Status, Trouble};
use std::env;
use std::fmt::{Arguments, Display};
use std::fs::File;
use std::io::{self, BufWriter, ErrorKind, IsTerminal, Write};
use std::os::fd::AsFd;

/// Standard output. A write that fails ends the command.
pub struct Output {
    stream: BufWriter<File>,
    identity: Option<Identity>,
    is_terminal: bool,
    is_painted: bool,
}

impl Output {
    /// A copy of the descriptor is written to: the standard library takes one that cannot be written for a place where everything may go.
    pub fn standard() -> Result<Output, Trouble> {
        let trouble = |error| Trouble::with("standard output", &error);
        start::must_be_open(1).map_err(trouble)?;
        let file = File::from(io::stdout().as_fd().try_clone_to_owned().map_err(trouble)?);
        let identity = Identity::of(&file.metadata().map_err(trouble)?);
        let is_terminal = file.is_terminal();
        let plain = env::var_os("NO_COLOR").is_some_and(|value| !value.is_empty()) || env::var_os("TERM").is_some_and(|term| term == "dumb");
        Ok(Output { stream: BufWriter::new(file), identity, is_terminal, is_painted: is_terminal && !plain })
    }

    pub fn is_terminal(&self) -> bool {
        self.is_terminal
    }

    pub fn bytes(&mut self, bytes: &[u8]) -> Result<(), Trouble> {
        self.stream.write_all(bytes).map_err(unwritten)
    }

    pub fn line(&mut self, line: Arguments<'_>) -> Result<(), Trouble> {
        writeln!(self.stream, "{line}").map_err(unwritten)
    }

    /// A line in the colour of its outcome.
    pub fn painted(&mut self, status: Status, line: impl Display) -> Result<(), Trouble> {
        if !self.is_painted {
            return self.line(format_args!("{line}"));
        }
        let colour = match status {
            Status::Good => 32,
            Status::Leaks => 31,
            Status::Refused | Status::Trouble => 33,
        };
        self.line(format_args!("\x1b[{colour}m{line}\x1b[0m"))
    }

    pub fn flush(&mut self) -> Result<(), Trouble> {
        self.stream.flush().map_err(unwritten)
    }

    /// Refuses to write into the file that is read, as `>` on its own input would.
    pub fn must_differ(&self, source: &Source, input: &Input) -> Result<(), Trouble> {
        if self.identity.is_some() && self.identity == input.identity {
            return Err(Trouble::of(format!("{source}: is standard output too, and would be written into itself")));
        }
        Ok(())
    }
}

fn unwritten(error: io::Error) -> Trouble {
    match error.kind() {
        ErrorKind::BrokenPipe => Trouble::Unread,
        _ => Trouble::with("standard output", &error),
    }
}
