//! The command `pezvoran`: judges statement files and checks kept tables by the proved archives, and says in words what they hold and why they are refused.
//!
//! Each part of the command is a module of `parts`. What they share: `source` reads what is named on the command line, `output` and `files` write, `report` is
//! an answer as it is shown, `reason` says in words why there is a refusal, `row` names the rows of a table, `comparison`
//! holds one beside the finished one, `text` is a statement file as text.

mod comparison;
mod files;
mod kept;
mod names;
mod output;
mod parts;
mod progress;
mod reason;
mod report;
mod row;
mod source;
mod start;
mod status;
mod text;
mod version;

use clap::Parser;
use output::Output;
use parts::{Command, Part};
use pezvoran::{Edition, Large, Small};
use status::{Status, Trouble};
use std::process::ExitCode;
use std::thread;

const EXIT_STATUS: &str = "\
Exit status: 0 confined, accepted or done; 1 leaks; 2 refused; 3 anything that kept the command from an answer, bad usage too. Of several files the worst \
counts.";

/// Says whether a guest script could come to hold a forbidden object, by a statement file of its host
///
/// A verdict is that of the proved analysis; what is said in words beside it is no part of what is proved.
#[derive(Parser)]
#[command(name = "pezvoran", version = version::SHORT, long_version = version::LONG, after_help = EXIT_STATUS, arg_required_else_help = true)]
pub struct Arguments {
    /// The large edition: labels up to 255, without it up to 63; its tables are its own
    #[arg(long, global = true)]
    large: bool,

    #[command(subcommand)]
    command: Command,
}

impl Arguments {
    fn run(&self, output: &mut Output) -> Result<Status, Trouble> {
        let status = if self.large { self.command.run::<Large>(output)? } else { self.command.run::<Small>(output)? };
        output.flush()?;
        Ok(status)
    }
}

/// Enough for every operation and for the command itself.
const STACK_BYTES: usize = Large::STACK_BYTES + (2 << 20);

/// The work is done in a thread, whose stack does not hang on the limits of the shell.
fn main() -> ExitCode {
    match thread::Builder::new().stack_size(STACK_BYTES).spawn(run) {
        // A panic has been said.
        Ok(worker) => worker.join().unwrap_or(Status::Trouble),
        Err(error) => Trouble::with("a thread", &error).say(),
    }
    .into()
}

fn run() -> Status {
    let status = match Arguments::try_parse() {
        Ok(arguments) => Output::standard().and_then(|mut output| arguments.run(&mut output)),
        Err(usage) => status::of_usage(&usage),
    };
    status.unwrap_or_else(|trouble| trouble.say())
}
