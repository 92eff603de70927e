//! A writer of statement files that refuses at the call what the reader would refuse.

use super::numbers::{BAD_NAME, NO_NAME};
use super::{Fault, Key, Kind, Label, Name, Sheet, Type, Var};
use crate::{Edition, FILE_BYTES};

/// Writes a statement file of an edition, record after record. Each call gives the position of the record, or the fault for which the operations would refuse
/// the file with it; nothing is written then.
#[derive(Clone, Debug)]
pub struct Writer<E> {
    bytes: Vec<u8>,
    sheet: Sheet<E>,
}

impl<E: Edition> Writer<E> {
    /// A writer of an empty file.
    pub fn new() -> Writer<E> {
        Writer { bytes: Vec::new(), sheet: Sheet::new() }
    }

    /// Any record by its kind and body. A body that has not the kind's length is refused 2.
    pub fn record(&mut self, kind: Kind, body: &[u8]) -> Result<usize, Fault> {
        let position = self.bytes.len();
        let length = position + 1 + body.len();
        if length > FILE_BYTES {
            return Err(Fault::too_long(length));
        }
        self.sheet.take(kind.byte(), body)?;
        self.bytes.push(kind.byte());
        self.bytes.extend_from_slice(body);
        Ok(position)
    }

    /// The file so far.
    pub fn bytes(&self) -> &[u8] {
        &self.bytes
    }

    /// What the records so far declare.
    pub fn sheet(&self) -> &Sheet<E> {
        &self.sheet
    }

    /// The file, or 7 where a function label has no function record.
    pub fn finish(self) -> Result<Vec<u8>, Fault> {
        self.sheet.complete()?;
        Ok(self.bytes)
    }
}

/// Declarations.
impl<E: Edition> Writer<E> {
    /// The classes of a name, bit c for class c; bit 0 must be set.
    pub fn name(&mut self, name: Name, mask: u8) -> Result<usize, Fault> {
        self.record(Kind::Name, &[name.0, mask])
    }

    /// A label. Stores to objects of a built-in label do nothing.
    pub fn label(&mut self, label: Label, kind: Type, built_in: bool) -> Result<usize, Fault> {
        self.record(Kind::Label, &[label.0, kind as u8, built_in.into()])
    }

    /// The guest must not come to hold the label.
    pub fn forbid(&mut self, label: Label) -> Result<usize, Fault> {
        self.record(Kind::Forbid, &[label.0])
    }

    /// The variables of a function: this, and up to six formals; more are refused 2.
    pub fn function(&mut self, label: Label, this: Var, formals: &[Var]) -> Result<usize, Fault> {
        self.with_six(Kind::Function, &[label.0, this.0], formals)
    }

    /// A variable of a scope. One of the top level may be the property of the global object with its name.
    pub fn variable(&mut self, variable: Var, owner: Label, name: Option<Name>) -> Result<usize, Fault> {
        let name = match name {
            None => NO_NAME,
            Some(Name(NO_NAME)) => BAD_NAME, // a name was meant, and the byte would say that there is none
            Some(name) => name.0,
        };
        self.record(Kind::Variable, &[variable.0, owner.0, name])
    }

    /// The guest shares the variable: it reads and writes it.
    pub fn grant(&mut self, variable: Var) -> Result<usize, Fault> {
        self.record(Kind::Grant, &[variable.0])
    }

    /// From the start an object of `label` has one of `to` under the name.
    pub fn property(&mut self, label: Label, name: Name, to: Label) -> Result<usize, Fault> {
        self.record(Kind::Property, &[label.0, name.0, to.0])
    }

    /// From the start the variable holds an object of the label.
    pub fn held(&mut self, variable: Var, label: Label) -> Result<usize, Fault> {
        self.record(Kind::Held, &[variable.0, label.0])
    }

    /// Guests load and store under names of the class alone.
    pub fn profile(&mut self, class: u8) -> Result<usize, Fault> {
        self.record(Kind::Profile, &[class])
    }
}

/// Statements, each in a scope.
impl<E: Edition> Writer<E> {
    /// `y = source`
    pub fn copy(&mut self, scope: Label, y: Var, source: Var) -> Result<usize, Fault> {
        self.record(Kind::Copy, &[scope.0, y.0, source.0])
    }

    /// `y = object[key]`; `wrapper` is the label of what a primitive would become.
    pub fn load(&mut self, scope: Label, y: Var, object: Var, key: impl Into<Key>, wrapper: Label) -> Result<usize, Fault> {
        self.record(Kind::Load, &[scope.0, y.0, object.0, key.into().byte(), wrapper.0])
    }

    /// `object[key] = value`
    pub fn store(&mut self, scope: Label, object: Var, key: impl Into<Key>, value: Var) -> Result<usize, Fault> {
        self.record(Kind::Store, &[scope.0, object.0, key.into().byte(), value.0])
    }

    /// `y = {}` or `y = []`
    pub fn make(&mut self, scope: Label, y: Var, label: Label) -> Result<usize, Fault> {
        self.record(Kind::Make, &[scope.0, y.0, label.0])
    }

    /// `y = function ...`; `prototype` is the label of its prototype property.
    pub fn make_function(&mut self, scope: Label, y: Var, label: Label, prototype: Label) -> Result<usize, Fault> {
        self.record(Kind::MakeFunction, &[scope.0, y.0, label.0, prototype.0])
    }

    /// `y = callee.call(this, arguments)`, with up to six arguments; more are refused 2.
    pub fn call(&mut self, scope: Label, y: Var, callee: Var, this: Var, arguments: &[Var]) -> Result<usize, Fault> {
        self.with_six(Kind::Call, &[scope.0, y.0, callee.0, this.0], arguments)
    }

    /// `y = new callee(arguments)`, with up to six arguments; more are refused 2. The new object has the label, and `t` holds it for the call.
    pub fn new_object(&mut self, scope: Label, y: Var, callee: Var, t: Var, label: Label, arguments: &[Var]) -> Result<usize, Fault> {
        self.with_six(Kind::New, &[scope.0, y.0, callee.0, t.0, label.0], arguments)
    }

    /// `return value`
    pub fn return_value(&mut self, scope: Label, value: Var) -> Result<usize, Fault> {
        self.record(Kind::Return, &[scope.0, value.0])
    }

    /// `throw value`
    pub fn throw(&mut self, scope: Label, value: Var) -> Result<usize, Fault> {
        self.record(Kind::Throw, &[scope.0, value.0])
    }

    /// `catch (y)`
    pub fn catch(&mut self, scope: Label, y: Var) -> Result<usize, Fault> {
        self.record(Kind::Catch, &[scope.0, y.0])
    }

    /// The object is turned into a primitive: its `toString` or `valueOf` is called.
    pub fn prim(&mut self, scope: Label, object: Var) -> Result<usize, Fault> {
        self.record(Kind::Prim, &[scope.0, object.0])
    }

    /// A record whose body ends with six variables, those left out being none.
    fn with_six(&mut self, kind: Kind, first: &[u8], variables: &[Var]) -> Result<usize, Fault> {
        let mut body: Vec<u8> = first.iter().copied().chain(variables.iter().map(|variable| variable.0)).collect();
        body.resize(body.len().max(kind.body_length()), Var::NONE.0);
        self.record(kind, &body)
    }
}

impl<E: Edition> Default for Writer<E> {
    fn default() -> Writer<E> {
        Writer::new()
    }
}
