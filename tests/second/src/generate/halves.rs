//! What a random file has declared so far, and random fields and statements over it.

use super::writer::Writer;
use crate::keys::{CLASSES, EVERY_NAME, KEY_OF_CLASS, KEY_OUTSIDE_CLASS, NAMES};
use crate::prng::Prng;

/// What one half of a file has declared. The halves keep apart as far as `Plan::crossing` says.
#[derive(Default)]
pub struct Half {
    pub plain: Vec<u8>,
    pub functions: Vec<u8>,
    pub arrays: Vec<u8>,
    pub variables: Vec<u8>,
    pub top: Vec<u8>,
}

/// How a file is to look.
pub struct Plan {
    pub target: usize,
    pub labels: usize,
    pub variables: usize,
    pub grants: usize,
    pub forbids: usize,
    pub properties: usize,
    /// Name records at the end of the file, after every key.
    pub late_names: usize,
    /// The class of a profile still to be written.
    pub profile: Option<u8>,
    /// A record mixes the halves in this many of a thousand cases.
    pub crossing: usize,
    /// Forbid in the second half only, grant in the first half only.
    pub guarded: bool,
}

pub struct State {
    pub r: Prng,
    pub w: Writer,
    pub plan: Plan,
    pub halves: [Half; 2],
    pub side: usize,
    pub free_labels: Vec<u8>,
    pub free_variables: Vec<u8>,
    pub free_names: Vec<u8>,
    pub late_names: Vec<u8>,
    pub unwritten: Vec<(u8, usize)>,
}

impl State {
    /// The half this field is taken from.
    pub fn half(&mut self) -> usize {
        if self.r.chance(self.plan.crossing, 1000) {
            1 - self.side
        } else {
            self.side
        }
    }

    /// 0 or a declared variable.
    pub fn var(&mut self) -> u8 {
        let half = self.half();
        let all = &self.halves[half].variables;
        if all.is_empty() || self.r.chance(1, 12) {
            0
        } else {
            self.r.pick(all)
        }
    }

    pub fn six(&mut self) -> [u8; 6] {
        let used = self.r.below(7);
        let mut vars = [0; 6];
        for v in vars.iter_mut() {
            if self.r.chance(used, 6) {
                *v = self.var();
            }
        }
        vars
    }

    pub fn scope(&mut self) -> u8 {
        let half = self.half();
        let all = &self.halves[half].functions;
        if all.is_empty() || self.r.chance(1, 3) {
            0
        } else {
            self.r.pick(all)
        }
    }

    pub fn plain(&mut self) -> Option<u8> {
        let half = self.half();
        let all = &self.halves[half].plain;
        if all.is_empty() {
            None
        } else {
            Some(self.r.pick(all))
        }
    }

    pub fn function_label(&mut self) -> Option<u8> {
        let half = self.half();
        let all = &self.halves[half].functions;
        if all.is_empty() {
            None
        } else {
            Some(self.r.pick(all))
        }
    }

    pub fn any_label(&mut self) -> Option<u8> {
        let half = self.half();
        let h = &self.halves[half];
        let all: Vec<u8> = h.plain.iter().chain(&h.functions).chain(&h.arrays).copied().collect();
        if all.is_empty() || (!self.plan.guarded && self.r.chance(1, 10)) {
            return if self.plan.guarded { None } else { Some(self.r.pick(&[0, 1, 2, 4])) };
        }
        Some(self.r.pick(&all))
    }

    pub fn top(&mut self) -> Option<u8> {
        let half = self.half();
        let all = &self.halves[half].top;
        if all.is_empty() {
            None
        } else {
            Some(self.r.pick(all))
        }
    }

    /// Writes the profile, if one is still to be written.
    pub fn profile(&mut self) -> bool {
        let Some(class) = self.plan.profile.take() else { return false };
        self.w.profile(class);
        true
    }

    pub fn key(&mut self) -> u8 {
        match self.r.below(10) {
            0 => KEY_OF_CLASS + self.r.below(CLASSES as usize) as u8,
            1 => EVERY_NAME,
            2 | 3 => KEY_OUTSIDE_CLASS + self.r.below(CLASSES as usize) as u8,
            4 => 3,
            5 => 1 + self.r.below(2) as u8,
            _ => self.r.below(NAMES as usize) as u8,
        }
    }

    /// Writes a statement or a held record of some kind, if what it needs is declared.
    pub fn statement(&mut self) {
        let k = self.scope();
        match self.r.below(13) {
            0 => {
                let (y, source) = (self.var(), self.var());
                self.w.copy(k, y, source);
            }
            1 | 2 => {
                let (y, object, key) = (self.var(), self.var(), self.key());
                if let Some(w) = self.plain() {
                    self.w.load(k, y, object, key, w);
                }
            }
            3 => {
                let (object, key, value) = (self.var(), self.key(), self.var());
                self.w.store(k, object, key, value);
            }
            4 => {
                let (y, half) = (self.var(), self.half());
                let all: Vec<u8> = self.halves[half].plain.iter().chain(&self.halves[half].arrays).copied().collect();
                if !all.is_empty() {
                    let l = self.r.pick(&all);
                    self.w.make(k, y, l);
                }
            }
            5 => {
                let y = self.var();
                if let (Some(l), Some(q)) = (self.function_label(), self.plain()) {
                    self.w.make_function(k, y, l, q);
                }
            }
            6 => {
                let (y, callee, this, args) = (self.var(), self.var(), self.var(), self.six());
                self.w.call(k, y, callee, this, args);
            }
            7 => {
                let (y, callee, t, args) = (self.var(), self.var(), self.var(), self.six());
                if let (Some(l), true) = (self.plain(), t != 0) {
                    self.w.new_object(k, y, callee, t, l, args);
                }
            }
            8 => {
                let value = self.var();
                self.w.give_back(k, value);
            }
            9 if k != 0 || self.r.chance(1, 20) => {
                let value = self.var();
                self.w.throw(k, value);
            }
            10 if k != 0 || self.r.chance(1, 20) => {
                let y = self.var();
                self.w.catch(k, y);
            }
            11 => {
                let object = self.var();
                self.w.prim(k, object);
            }
            12 => {
                if let (Some(v), Some(l)) = (self.top(), self.any_label()) {
                    self.w.held(v, l);
                }
            }
            _ => {}
        }
    }
}
