//! `man`: the man page, made of what `--help` says.

use super::Part;
use crate::output::Output;
use crate::status::{Status, Trouble};
use crate::{version, Arguments};
use clap::{Arg, Command, CommandFactory};
use pezvoran::Edition;
use roff::{bold, italic, roman, Inline, Roff};

/// The man page
#[derive(clap::Args)]
#[command(after_help = "\
Example:
  pezvoran man > pezvoran.1 && man ./pezvoran.1")]
pub struct Man {}

impl Part for Man {
    fn run<E: Edition>(&self, output: &mut Output) -> Result<Status, Trouble> {
        let mut command = Arguments::command();
        command.build();
        output.bytes(page(&command).render().as_bytes())?;
        Ok(Status::Good)
    }
}

fn page(command: &Command) -> Roff {
    let mut page = Roff::new();
    let about = command.get_about().map(ToString::to_string).unwrap_or_default();
    page.control("TH", ["PEZVORAN", "1", "", &format!("pezvoran {}", version::SHORT), ""]);
    section(&mut page, "NAME").text([roman(format!("pezvoran - {about}"))]);
    section(&mut page, "SYNOPSIS").text([bold("pezvoran"), roman(" ["), bold("--large"), roman("] "), italic("PART"), roman(" ...")]);
    section(&mut page, "DESCRIPTION");
    description(&mut page, command);
    section(&mut page, "OPTIONS");
    command.get_arguments().for_each(|argument| option(&mut page, argument));
    for part in command.get_subcommands().filter(|part| part.get_name() != "help") {
        section(&mut page, &part.get_name().to_uppercase());
        synopsis(&mut page, part);
        description(&mut page, part);
        part.get_arguments()
            .filter(|argument| !argument.is_global_set() && argument.get_id() != "help")
            .for_each(|argument| option(&mut page, argument));
        examples(&mut page, part);
    }
    section(&mut page, "EXIT STATUS");
    page.text([roman(command.get_after_help().map(ToString::to_string).unwrap_or_default().trim_start_matches("Exit status: "))]);
    page
}

fn section<'a>(page: &'a mut Roff, title: &str) -> &'a mut Roff {
    page.control("SH", [title])
}

/// The arguments of a part that other parts have not.
fn own(part: &Command) -> impl Iterator<Item = &Arg> {
    part.get_arguments().filter(|argument| !argument.is_global_set() && argument.get_id() != "help")
}

fn synopsis(page: &mut Roff, part: &Command) {
    let mut words = vec![bold(format!("pezvoran {}", part.get_name()))];
    if own(part).any(|argument| !argument.is_positional()) {
        words.push(roman(" [options]"));
    }
    for argument in own(part).filter(|argument| argument.is_positional()) {
        let (before, after) = if argument.is_required_set() { (" ", "") } else { (" [", "]") };
        let more =
            if argument.get_action().takes_values() && argument.get_num_args().is_some_and(|count| count.max_values() > 1) { "..." } else { "" };
        words.extend([roman(before), italic(value(argument)), roman(more), roman(after)]);
    }
    page.text(words);
}

/// What a part is and does, paragraph by paragraph.
fn description(page: &mut Roff, part: &Command) {
    let about = part.get_long_about().or_else(|| part.get_about()).map(ToString::to_string).unwrap_or_default();
    for paragraph in about.split("\n\n") {
        page.control("PP", []).text([roman(paragraph.trim())]);
    }
}

fn option(page: &mut Roff, argument: &Arg) {
    let mut head: Vec<Inline> = Vec::new();
    let spellings = argument.get_short().map(|short| format!("-{short}")).into_iter().chain(argument.get_long().map(|long| format!("--{long}")));
    for spelling in spellings {
        if !head.is_empty() {
            head.push(roman(", "));
        }
        head.push(bold(spelling));
    }
    if argument.get_action().takes_values() {
        if !head.is_empty() {
            head.push(roman(" "));
        }
        head.push(italic(value(argument)));
    }
    page.control("TP", []).text(head).text([roman(argument.get_help().map(ToString::to_string).unwrap_or_default())]);
}

fn value(argument: &Arg) -> String {
    argument.get_value_names().map_or_else(|| argument.get_id().to_string().to_uppercase(), |names| names.join(" "))
}

/// What stands behind the options: indented lines stay as they are, others are paragraphs.
fn examples(page: &mut Roff, part: &Command) {
    let text = part.get_after_help().map(ToString::to_string).unwrap_or_default();
    let mut is_kept = false;
    for line in text.lines().filter(|line| !line.is_empty()) {
        match (is_kept, line.starts_with(' ')) {
            (false, true) => page.control("nf", []),
            (true, false) => page.control("fi", []).control("PP", []),
            (false, false) => page.control("PP", []),
            (true, true) => &mut *page,
        };
        is_kept = line.starts_with(' ');
        page.text([roman(line)]);
    }
    if is_kept {
        page.control("fi", []);
    }
}
