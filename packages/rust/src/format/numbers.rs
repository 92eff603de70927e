//! Variables, labels, names and keys, each a type of its own, so that a call of the writer cannot take one for another.

use crate::NAMES;

pub(crate) const LAST_NAME: u8 = NAMES as u8 - 1;

/// Classes of names are 0 to 7.
pub(crate) const LAST_CLASS: u8 = 7;

/// Key `INSIDE + c` stands for all names of class c, and key `OUTSIDE + c` for all others.
pub(crate) const INSIDE: u8 = 128;
pub(crate) const OUTSIDE: u8 = INSIDE + LAST_CLASS + 1;

/// A variable that has no name has this one in its record.
pub(crate) const NO_NAME: u8 = 255;

/// Neither a name nor a key nor none: refused 5 in every field that takes one of them.
pub(crate) const BAD_NAME: u8 = 254;

/// A variable by its number.
#[derive(Clone, Copy, Debug, PartialEq, Eq, PartialOrd, Ord, Hash)]
pub struct Var(pub u8);

impl Var {
    /// No variable: it is empty, and what is written to it is dropped.
    pub const NONE: Var = Var(0);
}

/// A label by its number, or a scope: the top level or the label of a function.
#[derive(Clone, Copy, Debug, PartialEq, Eq, PartialOrd, Ord, Hash)]
pub struct Label(pub u8);

impl Label {
    /// The scope of what stands in no function.
    pub const TOP: Label = Label(0);
    pub const GLOBAL_OBJECT: Label = Label(0);
    pub const OBJECT_PROTOTYPE: Label = Label(1);
    pub const FUNCTION_PROTOTYPE: Label = Label(2);
    /// Whatever the guest makes.
    pub const GUEST: Label = Label(3);
    pub const ARRAY_PROTOTYPE: Label = Label(4);
}

/// A name by its number. One number may stand for many strings.
#[derive(Clone, Copy, Debug, PartialEq, Eq, PartialOrd, Ord, Hash)]
pub struct Name(pub u8);

impl Name {
    pub const TO_STRING: Name = Name(1);
    pub const VALUE_OF: Name = Name(2);
    pub const PROTOTYPE: Name = Name(3);
}

/// What a label's objects are.
#[derive(Clone, Copy, Debug, PartialEq, Eq, PartialOrd, Ord, Hash)]
#[repr(u8)]
pub enum Type {
    Plain = 1,
    Function = 2,
    Array = 3,
}

impl Type {
    /// The type of a byte; none where there is no such type.
    pub fn of_byte(byte: u8) -> Option<Type> {
        [Type::Plain, Type::Function, Type::Array].into_iter().find(|&kind| kind as u8 == byte)
    }
}

/// The names that a load or store may use. A name above 31 and a class above 7 make a key that the writer refuses 5.
#[derive(Clone, Copy, Debug, PartialEq, Eq, PartialOrd, Ord, Hash)]
pub struct Key(u8);

impl Key {
    /// No key, for what the file could not tell from another key.
    const BAD: Key = Key(255);

    /// One name.
    pub fn name(name: Name) -> Key {
        if name.0 > LAST_NAME {
            return Key::BAD;
        }
        Key(name.0)
    }

    /// All names of a class.
    pub fn class(class: u8) -> Key {
        Key::of_class(INSIDE, class)
    }

    /// All names outside a class.
    pub fn outside(class: u8) -> Key {
        Key::of_class(OUTSIDE, class)
    }

    fn of_class(first: u8, class: u8) -> Key {
        if class > LAST_CLASS {
            return Key::BAD;
        }
        Key(first + class)
    }

    /// The key of a byte; none where no key has it.
    pub fn of_byte(byte: u8) -> Option<Key> {
        let is_key = byte <= LAST_NAME || (INSIDE..=OUTSIDE + LAST_CLASS).contains(&byte);
        is_key.then_some(Key(byte))
    }

    /// The byte in a record; 255 where the key is bad.
    pub fn byte(self) -> u8 {
        self.0
    }
}

impl From<Name> for Key {
    fn from(name: Name) -> Key {
        Key::name(name)
    }
}
