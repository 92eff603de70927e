//! The parts of the command. Each is a module with its arguments as a struct and what it does as a `Part`; a new one is a module, a line in `Command` and a
//! line in `run`.

mod build;
mod check;
mod cite;
mod completions;
mod dump;
mod judge;
mod man;
mod table;

use crate::output::Output;
use crate::status::{Status, Trouble};
use clap::Subcommand;
use pezvoran::Edition;

/// What a part does, in an edition.
pub trait Part {
    fn run<E: Edition>(&self, output: &mut Output) -> Result<Status, Trouble>;
}

#[derive(Subcommand)]
pub enum Command {
    Judge(judge::Judge),
    Check(check::Check),
    Dump(dump::Dump),
    Build(build::Build),
    Table(table::Table),
    Cite(cite::Cite),
    Completions(completions::Completions),
    Man(man::Man),
}

impl Part for Command {
    fn run<E: Edition>(&self, output: &mut Output) -> Result<Status, Trouble> {
        match self {
            Command::Judge(part) => part.run::<E>(output),
            Command::Check(part) => part.run::<E>(output),
            Command::Dump(part) => part.run::<E>(output),
            Command::Build(part) => part.run::<E>(output),
            Command::Table(part) => part.run::<E>(output),
            Command::Cite(part) => part.run::<E>(output),
            Command::Completions(part) => part.run::<E>(output),
            Command::Man(part) => part.run::<E>(output),
        }
    }
}
