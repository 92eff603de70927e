//! The built command, run as a person or a script would run it.

mod citing;
mod examples;
mod files;
mod folder;
mod judging;
mod origin;
mod streams;
mod tables;
mod terminal;
mod texts;
mod usage;
