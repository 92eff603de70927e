//! The declaration sheet: what the records so far declare.

use super::numbers::NO_NAME;
use super::{Kind, Type};
use crate::edition::VARIABLES;
use crate::{Edition, Large, NAMES};
use std::marker::PhantomData;

/// What records declare, in an edition. It takes record after record, and stays as it is where it refuses one.
#[derive(Clone, Debug, PartialEq, Eq)]
pub struct Sheet<E> {
    pub(super) labels: [Option<LabelEntry>; Large::LABELS],
    pub(super) functions: [Option<FunctionEntry>; Large::LABELS],
    pub(super) variables: [Option<VariableEntry>; VARIABLES],
    pub(super) masks: [Option<ValueEntry>; NAMES],
    pub(super) profile: Option<ValueEntry>,
    forbidden: [bool; Large::LABELS],
    records: usize,
    length: usize,
    edition: PhantomData<E>,
}

/// An entry has the position of the record that made it; labels 0 to 4 are there without one.
#[derive(Clone, Copy, Debug, PartialEq, Eq)]
pub(super) struct LabelEntry {
    kind: Type,
    built_in: bool,
    pub position: Option<usize>,
}

#[derive(Clone, Copy, Debug, PartialEq, Eq)]
pub(super) struct FunctionEntry {
    variables: [u8; 7],
    pub position: usize,
}

#[derive(Clone, Copy, Debug, PartialEq, Eq)]
pub(super) struct VariableEntry {
    owner: u8,
    name: u8,
    pub position: usize,
}

#[derive(Clone, Copy, Debug, PartialEq, Eq)]
pub(super) struct ValueEntry {
    value: u8,
    pub position: usize,
}

impl<E: Edition> Sheet<E> {
    /// What is declared beforehand: labels 0 to 4.
    pub fn new() -> Sheet<E> {
        let label = |kind, built_in| Some(LabelEntry { kind, built_in, position: None });
        let beforehand =
            [label(Type::Plain, false), label(Type::Plain, true), label(Type::Plain, true), label(Type::Function, false), label(Type::Plain, true)];
        let mut labels = [None; Large::LABELS];
        labels[..beforehand.len()].copy_from_slice(&beforehand);
        Sheet {
            labels,
            functions: [None; Large::LABELS],
            variables: [None; VARIABLES],
            masks: [None; NAMES],
            profile: None,
            forbidden: [false; Large::LABELS],
            records: 0,
            length: 0,
            edition: PhantomData,
        }
    }

    /// The type of a label; none where it is not declared.
    pub fn type_of(&self, label: u8) -> Option<Type> {
        self.labels[usize::from(label)].map(|entry| entry.kind)
    }

    /// Whether a label is declared and built-in.
    pub fn is_built_in(&self, label: u8) -> bool {
        self.labels[usize::from(label)].is_some_and(|entry| entry.built_in)
    }

    /// The declared labels, those from 0 to 4 too, ascending.
    pub fn labels(&self) -> impl Iterator<Item = u8> + '_ {
        (0..=u8::MAX).filter(|&label| self.type_of(label).is_some())
    }

    /// The variables of a function: this, then the six formals. None where the label has no function record.
    pub fn function(&self, label: u8) -> Option<[u8; 7]> {
        self.functions[usize::from(label)].map(|entry| entry.variables)
    }

    /// The function labels from 5 up that have no function record yet, ascending.
    pub fn missing(&self) -> impl Iterator<Item = u8> + '_ {
        (5..=u8::MAX).filter(|&label| self.type_of(label) == Some(Type::Function) && self.function(label).is_none())
    }

    /// The owner scope of a variable; none where it is not declared.
    pub fn owner(&self, variable: u8) -> Option<u8> {
        self.variables[usize::from(variable)].map(|entry| entry.owner)
    }

    /// The name of a variable; none where it has no name or is not declared.
    pub fn name(&self, variable: u8) -> Option<u8> {
        self.variables[usize::from(variable)].map(|entry| entry.name).filter(|&name| name != NO_NAME)
    }

    /// The declared variables, ascending.
    pub fn variables(&self) -> impl Iterator<Item = u8> + '_ {
        (0..=u8::MAX).filter(|&variable| self.owner(variable).is_some())
    }

    /// The class mask of a name, 1 where no record gives one. Panics for a name above 31.
    pub fn mask(&self, name: u8) -> u8 {
        self.masks[usize::from(name)].map_or(1, |entry| entry.value)
    }

    /// Whether a label is forbidden.
    pub fn is_forbidden(&self, label: u8) -> bool {
        self.forbidden[usize::from(label)]
    }

    /// The forbidden labels, ascending.
    pub fn forbidden(&self) -> impl Iterator<Item = u8> + '_ {
        (0..=u8::MAX).filter(|&label| self.is_forbidden(label))
    }

    /// The class of names that guests are held to; none where no record says so.
    pub fn profile(&self) -> Option<u8> {
        self.profile.map(|entry| entry.value)
    }

    /// How many records were taken.
    pub fn records(&self) -> usize {
        self.records
    }

    /// The bytes of these records: the position of the next one.
    pub fn length(&self) -> usize {
        self.length
    }

    /// Adds a good record.
    pub(super) fn add(&mut self, kind: Kind, body: &[u8]) {
        let (place, position) = (usize::from(body[0]), self.length);
        match kind {
            Kind::Name => self.masks[place] = Some(ValueEntry { value: body[1], position }),
            Kind::Label => {
                let kind = Type::of_byte(body[1]).expect("a good type");
                self.labels[place] = Some(LabelEntry { kind, built_in: body[2] == 1, position: Some(position) });
            }
            Kind::Forbid => self.forbidden[place] = true,
            Kind::Function => {
                let variables = body[1..].try_into().expect("seven variables");
                self.functions[place] = Some(FunctionEntry { variables, position });
            }
            Kind::Variable => self.variables[place] = Some(VariableEntry { owner: body[1], name: body[2], position }),
            Kind::Profile => self.profile = Some(ValueEntry { value: body[0], position }),
            _ => {}
        }
        self.records += 1;
        self.length += 1 + body.len();
    }
}

impl<E: Edition> Default for Sheet<E> {
    fn default() -> Sheet<E> {
        Sheet::new()
    }
}
