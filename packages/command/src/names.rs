//! Names for variables, labels and names, from a side file: they are shown beside the numbers. A line is `label 5 the journal`, `variable 2 journal` or
//! `name 4 listener`, a colon behind the number or not; `#` begins a comment.

use crate::source::Source;
use crate::status::Trouble;
use crate::text::{numbered_lines, Place};
use pezvoran::format::Class;
use pezvoran::NAMES;
use std::collections::BTreeMap;

/// What a number stands for.
#[derive(Clone, Copy, Debug, PartialEq, Eq, PartialOrd, Ord)]
pub enum Thing {
    Label(u8),
    Variable(u8),
    Name(u8),
}

impl Thing {
    /// What a byte in a field of the class stands for, if it is one thing.
    pub fn of_field(class: Class, byte: u8) -> Option<Thing> {
        match class {
            Class::Scope | Class::Variable if byte == 0 => None,
            Class::Name | Class::VariableName | Class::Key => (usize::from(byte) < NAMES).then_some(Thing::Name(byte)),
            Class::Mask | Class::Type | Class::Flag | Class::NameClass => None,
            _ if class.refusal() == 3 => Some(Thing::Variable(byte)),
            _ => Some(Thing::Label(byte)),
        }
    }
}

/// The names that are known.
#[derive(Debug, Default)]
pub struct Names(BTreeMap<Thing, String>);

impl Names {
    pub fn of(&self, thing: Thing) -> Option<&str> {
        self.0.get(&thing).map(String::as_str)
    }

    /// The names of a side file, and those that are declared beforehand. None are known where there is no side file.
    pub fn read(source: Option<&Source>) -> Result<Names, Trouble> {
        let Some(source) = source else {
            return Ok(Names::default());
        };
        let input = source.read_text()?;
        let mut names = Names::default();
        for (number, line) in numbered_lines(&input.bytes) {
            let place = Place { line: number, column: 1 };
            names.take(&line).map_err(|words| Trouble::of(format!("{source}:{place}: {words}")))?;
        }
        for (thing, name) in BEFOREHAND {
            names.0.entry(thing).or_insert_with(|| name.into());
        }
        Ok(names)
    }

    fn take(&mut self, line: &str) -> Result<(), String> {
        let text = line.split('#').next().unwrap_or_default().trim();
        if text.is_empty() {
            return Ok(());
        }
        let wanted = "label, variable or name, its number and what it is called are wanted";
        let (sort, rest) = text.split_once(char::is_whitespace).ok_or(wanted)?;
        let (number, name) = rest.trim_start().split_once([' ', '\t', ':']).ok_or(wanted)?;
        let number: u8 = number.parse().map_err(|_| format!("`{number}` is no number from 0 to 255; {wanted}"))?;
        let thing = match sort {
            "label" => Thing::Label(number),
            "variable" => Thing::Variable(number),
            "name" => Thing::Name(number),
            _ => return Err(format!("`{sort}` is none of label, variable and name; {wanted}")),
        };
        let name: String = name.trim_start_matches(':').trim().chars().map(|c| if c.is_control() { ' ' } else { c }).collect();
        if name.is_empty() {
            return Err(wanted.into());
        }
        match self.0.insert(thing, name) {
            Some(before) => Err(format!("{sort} {number} is called `{before}` already")),
            None => Ok(()),
        }
    }
}

const BEFOREHAND: [(Thing, &str); 8] = [
    (Thing::Label(0), "global object"),
    (Thing::Label(1), "Object.prototype"),
    (Thing::Label(2), "Function.prototype"),
    (Thing::Label(3), "what the guest makes"),
    (Thing::Label(4), "Array.prototype"),
    (Thing::Name(1), "toString"),
    (Thing::Name(2), "valueOf"),
    (Thing::Name(3), "prototype"),
];
