//! What a readable statement file says: its declarations and its records, as plain data.

use crate::edition::Edition;
use crate::keys::{Key, CLASS_ZERO, KEY_OF_CLASS, NAMES, PROTOTYPE};
use crate::row::Row;

/// The longest statement file that is read.
pub const LONGEST_FILE: usize = 32_768;
/// Variable 1, the guest's bag.
pub const BAG: u8 = 1;
/// Label 3, whatever the guest makes, and the guest's scope.
pub const GUEST: u8 = 3;

#[derive(Clone, Copy, PartialEq, Eq, Debug)]
pub enum Type {
    Plain,
    Function,
    Array,
}

#[derive(Clone, Copy, PartialEq, Eq, Debug)]
pub struct Label {
    pub kind: Type,
    pub built_in: bool,
}

#[derive(Clone, Copy, PartialEq, Eq, Debug)]
pub struct Function {
    pub this: u8,
    pub formals: [u8; 6],
}

#[derive(Clone, Copy, PartialEq, Eq, Debug)]
pub struct Variable {
    pub owner: u8,
    pub name: Option<u8>,
}

/// A record that has rules of its own; what kinds 1 to 5 and 9 declare is kept in `Program`'s other fields.
#[derive(Clone, Copy, PartialEq, Eq, Debug)]
pub enum Record {
    Grant { v: u8 },
    Property { l: u8, n: u8, x: u8 },
    Held { v: u8, l: u8 },
    Copy { k: u8, y: u8, source: u8 },
    Load { k: u8, y: u8, object: u8, key: u8, w: u8 },
    Store { k: u8, object: u8, key: u8, value: u8 },
    Make { k: u8, y: u8, l: u8 },
    MakeFunction { k: u8, y: u8, l: u8, q: u8 },
    Call { k: u8, y: u8, callee: u8, this: u8, args: [u8; 6] },
    New { k: u8, y: u8, callee: u8, t: u8, l: u8, args: [u8; 6] },
    Return { k: u8, value: u8 },
    Throw { k: u8, value: u8 },
    Catch { k: u8, y: u8 },
    Prim { k: u8, object: u8 },
}

#[derive(Clone, PartialEq, Debug)]
pub struct Program {
    pub edition: Edition,
    /// In the small edition nothing is ever declared of labels 64 to 255.
    pub labels: [Option<Label>; 256],
    pub functions: [Option<Function>; 256],
    pub variables: [Option<Variable>; 256],
    /// The class masks of the whole file.
    pub masks: [Option<u8>; NAMES as usize],
    pub forbidden: Row,
    /// The class of names that the guest is held to by a profile (kind 9).
    pub profile: Option<u8>,
    /// Records of kinds 6 to 8 and 16 to 26 in the order of the file.
    pub records: Vec<Record>,
    /// The statements of the guest, which belong to no record.
    pub guest: Vec<Record>,
}

impl Program {
    /// What the empty file says: labels 0 to 4, and function 3 with 1 as this and all formals.
    pub fn new(edition: Edition) -> Program {
        let mut labels = [None; 256];
        labels[0] = Some(Label { kind: Type::Plain, built_in: false });
        labels[1] = Some(Label { kind: Type::Plain, built_in: true });
        labels[2] = Some(Label { kind: Type::Plain, built_in: true });
        labels[3] = Some(Label { kind: Type::Function, built_in: false });
        labels[4] = Some(Label { kind: Type::Plain, built_in: true });
        let mut functions = [None; 256];
        functions[GUEST as usize] = Some(Function { this: BAG, formals: [BAG; 6] });
        let mut program = Program {
            edition,
            labels,
            functions,
            variables: [None; 256],
            masks: [None; NAMES as usize],
            forbidden: Row::EMPTY,
            profile: None,
            records: Vec::new(),
            guest: Vec::new(),
        };
        program.guest = program.guest_statements();
        program
    }

    /// The guest: scope 3, variable 1 in every variable field, w, l, q = 3 and the key of its class, without a profile that of class 0; by the
    /// masks read so far.
    pub fn guest_statements(&self) -> Vec<Record> {
        let key = KEY_OF_CLASS + self.profile.unwrap_or(0);
        // Request 04: the prototype property is written only if the class has its name. Make function without it is make.
        let make_function = if self.key_has(key, PROTOTYPE) {
            Record::MakeFunction { k: GUEST, y: BAG, l: GUEST, q: GUEST }
        } else {
            Record::Make { k: GUEST, y: BAG, l: GUEST }
        };
        vec![
            make_function,
            Record::Load { k: GUEST, y: BAG, object: BAG, key, w: GUEST },
            Record::Store { k: GUEST, object: BAG, key, value: BAG },
            Record::Call { k: GUEST, y: BAG, callee: BAG, this: BAG, args: [BAG; 6] },
            Record::New { k: GUEST, y: BAG, callee: BAG, t: BAG, l: GUEST, args: [BAG; 6] },
            Record::Return { k: GUEST, value: BAG },
            Record::Throw { k: GUEST, value: BAG },
            Record::Catch { k: GUEST, y: BAG },
        ]
    }

    /// The declared labels with what was declared of them, ascending.
    pub fn declared(&self) -> impl Iterator<Item = (u8, Label)> + '_ {
        (0u8..=255).filter_map(|l| self.labels[l as usize].map(|label| (l, label)))
    }

    /// The declared labels as a row.
    pub fn declared_row(&self) -> Row {
        self.declared().map(|(l, _)| l).collect()
    }

    /// The function of label `l`, if `l` is a function label.
    pub fn function(&self, l: u8) -> Option<Function> {
        self.labels[l as usize].filter(|label| label.kind == Type::Function)?;
        self.functions[l as usize]
    }

    pub fn is_built_in(&self, l: u8) -> bool {
        self.labels[l as usize].is_some_and(|label| label.built_in)
    }

    fn in_class(&self, n: u8, c: u8) -> bool {
        self.masks[n as usize].unwrap_or(CLASS_ZERO) >> c & 1 == 1
    }

    /// True where name `n` is one of the names that the key byte stands for; a byte that is no key stands for none.
    pub fn key_has(&self, key: u8, n: u8) -> bool {
        match Key::of(key) {
            Some(Key::Name(name)) => name == n,
            Some(Key::OfClass(c)) => self.in_class(n, c),
            Some(Key::OutsideClass(c)) => !self.in_class(n, c),
            None => false,
        }
    }

    /// The names of a key byte, ascending.
    pub fn names(&self, key: u8) -> impl Iterator<Item = u8> + '_ {
        (0..NAMES).filter(move |&n| self.key_has(key, n))
    }

    /// The records of the file and then the statements of the guest.
    pub fn all_records(&self) -> impl Iterator<Item = Record> + '_ {
        self.records.iter().chain(&self.guest).copied()
    }

    /// The named variables with their names.
    pub fn named(&self) -> impl Iterator<Item = (u8, u8)> + '_ {
        (0u8..=255).filter_map(|v| Some((v, self.variables[v as usize]?.name?)))
    }
}
