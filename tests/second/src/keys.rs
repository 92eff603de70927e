//! Key bytes: a name, all names of a class, or all names outside a class.

/// Number of names.
pub const NAMES: u8 = 32;
/// Number of classes.
pub const CLASSES: u8 = 8;
/// The keys of all names of a class, from class 0 on.
pub const KEY_OF_CLASS: u8 = 128;
/// The keys of all names outside a class, from class 0 on (request 01).
pub const KEY_OUTSIDE_CLASS: u8 = 136;
/// The first byte after the keys.
pub const KEYS_END: u8 = KEY_OUTSIDE_CLASS + CLASSES;
/// Class 0 holds every name, and no name is outside it.
pub const EVERY_NAME: u8 = KEY_OF_CLASS;
pub const NO_NAME: u8 = KEY_OUTSIDE_CLASS;
/// The name of a function's prototype property.
pub const PROTOTYPE: u8 = 3;
/// The bit of class 0, which every mask has; the mask of a name without a record has no other.
pub const CLASS_ZERO: u8 = 1;

#[derive(Clone, Copy, PartialEq, Eq, Debug)]
pub enum Key {
    Name(u8),
    OfClass(u8),
    OutsideClass(u8),
}

impl Key {
    /// What the byte means; none where it is no key.
    pub fn of(byte: u8) -> Option<Key> {
        match byte {
            0..NAMES => Some(Key::Name(byte)),
            KEY_OF_CLASS..KEY_OUTSIDE_CLASS => Some(Key::OfClass(byte - KEY_OF_CLASS)),
            KEY_OUTSIDE_CLASS..KEYS_END => Some(Key::OutsideClass(byte - KEY_OUTSIDE_CLASS)),
            _ => None,
        }
    }
}
