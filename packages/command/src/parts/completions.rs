//! `completions`: a script for a shell.

use super::Part;
use crate::output::Output;
use crate::status::{Status, Trouble};
use crate::Arguments;
use clap::CommandFactory;
use clap_complete::{generate, Shell};
use pezvoran::Edition;

/// A script by which a shell completes the words of this command
#[derive(clap::Args)]
#[command(after_help = "\
Example, for bash, in ~/.bashrc:
  eval \"$(pezvoran completions bash)\"")]
pub struct Completions {
    #[arg(value_enum)]
    shell: Shell,
}

impl Part for Completions {
    fn run<E: Edition>(&self, output: &mut Output) -> Result<Status, Trouble> {
        let mut script = Vec::new();
        generate(self.shell, &mut Arguments::command(), "pezvoran", &mut script);
        output.bytes(&script)?;
        Ok(Status::Good)
    }
}
