//! The classes of fields: what a byte may be, and with what number a bad one is refused. Which bytes are good hangs on what is declared: see the sheet.

use super::numbers::{INSIDE, LAST_CLASS, LAST_NAME, OUTSIDE};
use crate::Edition;

/// What a field's byte may be.
#[derive(Clone, Copy, Debug, PartialEq, Eq, PartialOrd, Ord, Hash)]
pub enum Class {
    /// A name.
    Name,
    /// A class mask.
    Mask,
    /// A label to declare.
    NewLabel,
    /// A label's type.
    Type,
    /// Whether a label is built-in.
    Flag,
    /// A declared label.
    AnyLabel,
    /// A declared label other than 3.
    HostLabel,
    /// A declared label from 5 up that is a function.
    FunctionLabel,
    /// A declared label from 5 up that is plain.
    PlainLabel,
    /// A declared label from 5 up that is plain or an array.
    DataLabel,
    /// 0, the top level, or a declared label from 5 up that is a function.
    Scope,
    /// A variable to declare.
    NewVariable,
    /// 0, none, or a declared variable.
    Variable,
    /// A declared variable.
    DeclaredVariable,
    /// A declared variable whose owner is scope 0.
    GlobalVariable,
    /// A name, or 255 for none.
    VariableName,
    /// A class of names.
    NameClass,
    /// A name, all names of a class, or all names outside one.
    Key,
}

impl Class {
    /// All classes.
    pub const ALL: [Class; 18] = [
        Class::Name,
        Class::Mask,
        Class::NewLabel,
        Class::Type,
        Class::Flag,
        Class::AnyLabel,
        Class::HostLabel,
        Class::FunctionLabel,
        Class::PlainLabel,
        Class::DataLabel,
        Class::Scope,
        Class::NewVariable,
        Class::Variable,
        Class::DeclaredVariable,
        Class::GlobalVariable,
        Class::VariableName,
        Class::NameClass,
        Class::Key,
    ];

    /// The number with which a bad byte is refused: 3 for a variable, 4 for a label or scope, 5 for any other value.
    pub fn refusal(self) -> u8 {
        match self {
            Class::NewVariable | Class::Variable | Class::DeclaredVariable | Class::GlobalVariable => 3,
            Class::NewLabel | Class::AnyLabel | Class::HostLabel | Class::FunctionLabel | Class::PlainLabel | Class::DataLabel | Class::Scope => 4,
            Class::Name | Class::Mask | Class::Type | Class::Flag | Class::VariableName | Class::NameClass | Class::Key => 5,
        }
    }

    /// What would be good there, in words.
    pub fn wanted<E: Edition>(self) -> String {
        match self {
            Class::Name => format!("a name from 0 to {LAST_NAME}"),
            Class::Mask => "an odd number".into(),
            Class::NewLabel => format!("a label from 5 to {}", E::LABELS - 1),
            Class::Type => "1 (plain), 2 (function) or 3 (array)".into(),
            Class::Flag => "0 or 1 (built-in)".into(),
            Class::AnyLabel => "a declared label".into(),
            Class::HostLabel => "a declared label other than 3".into(),
            Class::FunctionLabel => "a function label from 5 up".into(),
            Class::PlainLabel => "a plain label from 5 up".into(),
            Class::DataLabel => "a plain or array label from 5 up".into(),
            Class::Scope => "0 or a function label from 5 up".into(),
            Class::NewVariable => "a variable from 2 to 255".into(),
            Class::Variable => "0 or a declared variable".into(),
            Class::DeclaredVariable => "a declared variable".into(),
            Class::GlobalVariable => "a declared variable with owner 0".into(),
            Class::VariableName => format!("255 for none or a name from 0 to {LAST_NAME}"),
            Class::NameClass => format!("a class from 0 to {LAST_CLASS}"),
            Class::Key => format!("a name from 0 to {LAST_NAME}, or {INSIDE} + c or {OUTSIDE} + c with c from 0 to {LAST_CLASS}"),
        }
    }
}
