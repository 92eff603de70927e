//! What a byte of each sort has to be, given what earlier records declared; else the refusal's number.

use crate::keys::{Key, CLASSES, NAMES};
use crate::program::{Program, Type, GUEST};

pub const BAD_VARIABLE: u8 = 3;
pub const BAD_LABEL: u8 = 4;
pub const BAD_NAME: u8 = 5;
pub const TWICE: u8 = 6;

pub fn name(n: u8) -> Result<u8, u8> {
    if n < NAMES {
        Ok(n)
    } else {
        Err(BAD_NAME)
    }
}

pub fn class(c: u8) -> Result<u8, u8> {
    if c < CLASSES {
        Ok(c)
    } else {
        Err(BAD_NAME)
    }
}

pub fn key(b: u8) -> Result<u8, u8> {
    Key::of(b).map(|_| b).ok_or(BAD_NAME)
}

impl Program {
    /// 0 or a declared variable.
    pub fn variable(&self, v: u8) -> Result<u8, u8> {
        if v == 0 || self.variables[v as usize].is_some() {
            Ok(v)
        } else {
            Err(BAD_VARIABLE)
        }
    }

    /// A declared variable with owner 0.
    pub fn top_variable(&self, v: u8) -> Result<u8, u8> {
        self.variables[v as usize].filter(|x| x.owner == 0).map(|_| v).ok_or(BAD_VARIABLE)
    }

    /// Any declared label.
    pub fn label(&self, l: u8) -> Result<u8, u8> {
        if self.labels[l as usize].is_some() {
            Ok(l)
        } else {
            Err(BAD_LABEL)
        }
    }

    /// A declared label that is not 3.
    pub fn host_label(&self, l: u8) -> Result<u8, u8> {
        if l == GUEST {
            Err(BAD_LABEL)
        } else {
            self.label(l)
        }
    }

    /// A declared label from 5 up of one of the types.
    pub fn made_label(&self, l: u8, kinds: &[Type]) -> Result<u8, u8> {
        let l = self.label(l)?;
        let good = self.labels[l as usize].is_some_and(|x| kinds.contains(&x.kind));
        if l >= 5 && good {
            Ok(l)
        } else {
            Err(BAD_LABEL)
        }
    }

    /// 0, or a declared function label that is not 3.
    pub fn scope(&self, k: u8) -> Result<u8, u8> {
        if k == 0 {
            Ok(0)
        } else {
            self.made_label(k, &[Type::Function])
        }
    }
}
