//! The table of kinds: for each its byte, its name and its fields.

use super::Class;

/// A kind of record, by its byte.
#[derive(Clone, Copy, Debug, PartialEq, Eq, PartialOrd, Ord, Hash)]
#[repr(u8)]
pub enum Kind {
    Name = 1,
    Label = 2,
    Forbid = 3,
    Function = 4,
    Variable = 5,
    Grant = 6,
    Property = 7,
    Held = 8,
    Profile = 9,
    Copy = 16,
    Load = 17,
    Store = 18,
    Make = 19,
    MakeFunction = 20,
    Call = 21,
    New = 22,
    Return = 23,
    Throw = 24,
    Catch = 25,
    Prim = 26,
}

/// A field of a body; each is one byte.
#[derive(Clone, Copy, Debug, PartialEq, Eq)]
pub struct Field {
    /// What the field is for, in a word that no other field of the kind has.
    pub role: &'static str,
    /// What may stand there.
    pub class: Class,
}

impl Kind {
    /// All kinds, ascending.
    pub const ALL: [Kind; ROWS.len()] = {
        let mut all = [Kind::Name; ROWS.len()];
        let mut i = 0;
        while i < ROWS.len() {
            all[i] = ROWS[i].0;
            i += 1;
        }
        all
    };

    /// The kind of a byte; none where no record has it.
    pub fn of_byte(byte: u8) -> Option<Kind> {
        Kind::ALL.into_iter().find(|kind| kind.byte() == byte)
    }

    /// The byte with which a record begins.
    pub fn byte(self) -> u8 {
        self as u8
    }

    /// The kind of a name; none where no kind has it.
    pub fn of_name(name: &str) -> Option<Kind> {
        Kind::ALL.into_iter().find(|kind| kind.name() == name)
    }

    /// The name, as document 01 has it: `make function`.
    pub fn name(self) -> &'static str {
        self.row().1
    }

    /// The fields of the body, from the left.
    pub fn fields(self) -> &'static [Field] {
        self.row().2
    }

    /// The bytes of a body.
    pub fn body_length(self) -> usize {
        self.fields().len()
    }

    fn row(self) -> &'static Row {
        ROWS.iter().find(|row| row.0 == self).expect("each kind has a row")
    }
}

type Row = (Kind, &'static str, &'static [Field]);

const fn field(role: &'static str, class: Class) -> Field {
    Field { role, class }
}

const fn variable(role: &'static str) -> Field {
    field(role, Class::Variable)
}

const K: Field = field("k", Class::Scope);
const T: Field = field("t", Class::DeclaredVariable);
const KEY: Field = field("key", Class::Key);
const F: [Field; 6] = [variable("formal1"), variable("formal2"), variable("formal3"), variable("formal4"), variable("formal5"), variable("formal6")];
const A: [Field; 6] = [variable("arg1"), variable("arg2"), variable("arg3"), variable("arg4"), variable("arg5"), variable("arg6")];

const ROWS: &[Row; 20] = &[
    (Kind::Name, "name", &[field("n", Class::Name), field("mask", Class::Mask)]),
    (Kind::Label, "label", &[field("l", Class::NewLabel), field("type", Class::Type), field("flag", Class::Flag)]),
    (Kind::Forbid, "forbid", &[field("l", Class::AnyLabel)]),
    (Kind::Function, "function", &[field("l", Class::FunctionLabel), variable("this"), F[0], F[1], F[2], F[3], F[4], F[5]]),
    (Kind::Variable, "variable", &[field("v", Class::NewVariable), field("owner", Class::Scope), field("name", Class::VariableName)]),
    (Kind::Grant, "grant", &[field("v", Class::GlobalVariable)]),
    (Kind::Property, "property", &[field("l", Class::HostLabel), field("n", Class::Name), field("to", Class::HostLabel)]),
    (Kind::Held, "held", &[field("v", Class::GlobalVariable), field("l", Class::HostLabel)]),
    (Kind::Profile, "profile", &[field("c", Class::NameClass)]),
    (Kind::Copy, "copy", &[K, variable("y"), variable("source")]),
    (Kind::Load, "load", &[K, variable("y"), variable("object"), KEY, field("w", Class::PlainLabel)]),
    (Kind::Store, "store", &[K, variable("object"), KEY, variable("value")]),
    (Kind::Make, "make", &[K, variable("y"), field("l", Class::DataLabel)]),
    (Kind::MakeFunction, "make function", &[K, variable("y"), field("l", Class::FunctionLabel), field("q", Class::PlainLabel)]),
    (Kind::Call, "call", &[K, variable("y"), variable("callee"), variable("this"), A[0], A[1], A[2], A[3], A[4], A[5]]),
    (Kind::New, "new", &[K, variable("y"), variable("callee"), T, field("l", Class::PlainLabel), A[0], A[1], A[2], A[3], A[4], A[5]]),
    (Kind::Return, "return", &[K, variable("value")]),
    (Kind::Throw, "throw", &[K, variable("value")]),
    (Kind::Catch, "catch", &[K, variable("y")]),
    (Kind::Prim, "prim", &[K, variable("object")]),
];
