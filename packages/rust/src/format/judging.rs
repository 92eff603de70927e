//! Whether a record may come next, judged by the sheet; if not, with what number it is refused, and why in words.

use super::numbers::{LAST_CLASS, LAST_NAME, NO_NAME};
use super::{BadField, Class, Fault, Field, Key, Kind, Sheet, Type};
use crate::Edition;

impl<E: Edition> Sheet<E> {
    /// Takes a record that stands behind those taken before, or refuses it as the operations would. A body that has not the kind's length is refused 2.
    pub fn take(&mut self, kind: u8, body: &[u8]) -> Result<(), Fault> {
        let kind = self.judge(kind, body)?;
        self.add(kind, body);
        Ok(())
    }

    /// What is refused at the end of a file: 7, a function label without a function record.
    pub fn complete(&self) -> Result<(), Fault> {
        let missing: Vec<u8> = self.missing().collect();
        if missing.is_empty() {
            return Ok(());
        }
        Err(Fault::missing(self.length(), &missing))
    }

    /// The kind of a record that may come next. Else the first bad byte from the left, and last what is declared twice.
    fn judge(&self, byte: u8, body: &[u8]) -> Result<Kind, Fault> {
        let fault = |number, kind, field, why| Fault { number, position: self.length(), record: Some(self.records() + 1), kind, field, why };
        let Some(kind) = Kind::of_byte(byte) else {
            return Err(fault(1, None, None, format!("kind {byte} is unknown")));
        };
        let (length, whole) = (body.len(), kind.body_length());
        if length != whole {
            return Err(fault(2, Some(kind), None, format!("the body has length {length}; {whole} is wanted")));
        }
        let bad = |index: usize, number, why| {
            let Field { role, class } = kind.fields()[index];
            Err(fault(number, Some(kind), Some(BadField { index, role, class, value: body[index] }), why))
        };
        for (index, (field, &value)) in kind.fields().iter().zip(body).enumerate() {
            if !self.is_good(field.class, value) {
                let why = format!("{}; {}", self.standing(field.class, value), wanted::<E>(field.class, body));
                return bad(index, field.class.refusal(), why);
            }
        }
        if kind == Kind::Variable && body[1] != 0 && body[2] != NO_NAME {
            return bad(2, 5, format!("and the owner is scope {}; {}", body[1], wanted::<E>(Class::VariableName, body)));
        }
        self.declared(kind, body[0]).map_or(Ok(kind), |why| bad(0, 6, why))
    }

    /// Whether a byte is good in a field of the class.
    fn is_good(&self, class: Class, byte: u8) -> bool {
        let is_of = |types: &[Type]| byte >= 5 && self.type_of(byte).is_some_and(|kind| types.contains(&kind));
        match class {
            Class::Name => byte <= LAST_NAME,
            Class::Mask => byte % 2 == 1,
            Class::NewLabel => byte >= 5 && usize::from(byte) < E::LABELS,
            Class::Type => Type::of_byte(byte).is_some(),
            Class::Flag => byte <= 1,
            Class::AnyLabel => self.type_of(byte).is_some(),
            Class::HostLabel => byte != 3 && self.type_of(byte).is_some(),
            Class::FunctionLabel => is_of(&[Type::Function]),
            Class::PlainLabel => is_of(&[Type::Plain]),
            Class::DataLabel => is_of(&[Type::Plain, Type::Array]),
            Class::Scope => byte == 0 || is_of(&[Type::Function]),
            Class::NewVariable => byte >= 2,
            Class::Variable => byte == 0 || self.owner(byte).is_some(),
            Class::DeclaredVariable => self.owner(byte).is_some(),
            Class::GlobalVariable => self.owner(byte) == Some(0),
            Class::VariableName => byte <= LAST_NAME || byte == NO_NAME,
            Class::NameClass => byte <= LAST_CLASS,
            Class::Key => Key::of_byte(byte).is_some(),
        }
    }

    /// What a byte is that is not good in a field of the class.
    fn standing(&self, class: Class, byte: u8) -> String {
        match class {
            Class::Mask => "which lacks bit 0".into(),
            Class::Type => "which is no type".into(),
            Class::Flag => "which is no flag".into(),
            Class::NameClass => "which is no class".into(),
            Class::Key => "which is no key".into(),
            Class::Name | Class::VariableName => "which is no name".into(),
            Class::NewVariable | Class::Variable | Class::DeclaredVariable | Class::GlobalVariable => self.variable_standing(byte),
            _ => self.label_standing(byte).into(),
        }
    }

    fn variable_standing(&self, variable: u8) -> String {
        match (variable, self.owner(variable)) {
            (0, _) => "which stands for none".into(),
            (1, _) => "which is the guest's bag".into(),
            (_, None) => "which no earlier record declares".into(),
            (_, Some(owner)) => format!("whose owner is scope {owner}"),
        }
    }

    fn label_standing(&self, label: u8) -> &'static str {
        match (label, self.type_of(label)) {
            (0, _) => "which is the global object",
            (1, _) => "which is Object.prototype",
            (2, _) => "which is Function.prototype",
            (3, _) => "which is whatever the guest makes",
            (4, _) => "which is Array.prototype",
            (_, Some(Type::Plain)) => "which is plain",
            (_, Some(Type::Function)) => "which is a function",
            (_, Some(Type::Array)) => "which is an array",
            (_, None) if usize::from(label) < E::LABELS => "which no earlier record declares",
            (_, None) => "which only the large edition has",
        }
    }

    /// That an earlier record declares what this one would.
    fn declared(&self, kind: Kind, number: u8) -> Option<String> {
        let place = usize::from(number);
        let already = |position| format!("which the record at byte {position} declares already");
        match kind {
            Kind::Name => self.masks[place].map(|entry| already(entry.position)),
            Kind::Label => self.labels[place].and_then(|entry| entry.position).map(already),
            Kind::Function => self.functions[place].map(|entry| format!("which has a function record at byte {} already", entry.position)),
            Kind::Variable => self.variables[place].map(|entry| already(entry.position)),
            Kind::Profile => self.profile.map(|entry| format!("and there is a profile at byte {} already", entry.position)),
            _ => None,
        }
    }
}

/// What would be good in a field of the class. A variable's name hangs on the owner, which stands before it.
fn wanted<E: Edition>(class: Class, body: &[u8]) -> String {
    if class == Class::VariableName && body[1] != 0 {
        return format!("{NO_NAME} for none is wanted where the owner is not 0");
    }
    format!("{} is wanted", class.wanted::<E>())
}
