//! Generator (a): random readable files of any size up to 32,768 bytes, with every kind of record.

use super::halves::{Half, Plan, State};
use super::writer::Writer;
use super::{title, Named};
use crate::edition::Edition;
use crate::keys::{CLASSES, CLASS_ZERO, NAMES};
use crate::prng::Prng;
use std::ops::RangeInclusive;

/// Makes a random readable file: records of all kinds over what was declared before, guarded or not.
pub fn random_in(edition: Edition, seed: u64) -> Named {
    let mut r = Prng::new(seed.wrapping_mul(7).wrapping_add(0xA));
    let plan = plan(edition, &mut r);
    let mut free_names = shuffled(&mut r, 0..=NAMES - 1);
    let mut state = State {
        w: Writer::new(),
        halves: [Half::default(), Half::default()],
        side: 0,
        free_labels: shuffled(&mut r, edition.declarable()),
        free_variables: shuffled(&mut r, 2..=255),
        late_names: free_names.split_off(NAMES as usize - plan.late_names),
        free_names,
        unwritten: Vec::new(),
        plan,
        r,
    };
    // 12 bytes for the longest record, 6 for filling up, 9 for each function record still due, 3 for each name record, 2 for a profile.
    while state.w.bytes.len() + 9 * state.unwritten.len() + 9 + 3 * state.late_names.len() + 20 <= state.plan.target {
        state.side = state.r.below(2);
        state.record();
    }
    while let Some((l, side)) = state.unwritten.pop() {
        state.function(l, side);
    }
    while let Some(n) = state.late_names.pop() {
        if state.r.chance(1, 4) {
            state.profile();
        }
        state.name(n);
    }
    state.profile();
    let target = state.plan.target;
    state.w.fill(target);
    (title(edition, "random", seed), state.w.bytes)
}

fn plan(edition: Edition, r: &mut Prng) -> Plan {
    let target = match r.below(20) {
        0 => 32_768,
        1 => r.between(8_000, 32_768),
        2..=6 => r.between(1_500, 8_000),
        7..=14 => r.between(200, 1_500),
        _ => r.between(0, 200),
    };
    let room = (target / 30).max(2);
    let most = room.min(edition.declarable().len());
    // Half of the files of the large edition have as many labels as there is room for.
    let fewest = if edition == Edition::Large && r.chance(1, 2) { most } else { 1 };
    Plan {
        target,
        labels: r.between(fewest, most),
        variables: r.between(1, (2 * room).min(254)),
        grants: r.pick(&[0, 1, 2, 3, 20]),
        forbids: r.pick(&[1, 1, 2, 5, 20]),
        properties: r.pick(&[0, 2, 10, 100]),
        late_names: r.pick(&[0, 0, 0, 3, 10]),
        profile: r.chance(1, 3).then(|| r.below(CLASSES as usize) as u8),
        crossing: r.pick(&[0, 0, 0, 5, 50, 500]),
        guarded: r.chance(2, 3),
    }
}

fn shuffled(r: &mut Prng, numbers: RangeInclusive<u8>) -> Vec<u8> {
    let mut all: Vec<u8> = numbers.collect();
    r.shuffle(&mut all);
    all
}

impl State {
    /// Writes one record of some kind; where that kind cannot be written yet, none.
    fn record(&mut self) {
        if self.r.chance(1, 2) && self.declare() {
            return;
        }
        self.statement();
    }

    /// Writes a declaring record if the plan has one left.
    fn declare(&mut self) -> bool {
        match self.r.below(13) {
            0 | 1 | 2 if self.plan.labels > 0 => self.label(),
            3..=6 if self.plan.variables > 0 => self.variable(),
            7 => {
                let Some(n) = self.free_names.pop() else { return false };
                self.name(n);
            }
            8 if !self.unwritten.is_empty() => {
                let (l, side) = self.unwritten.remove(0);
                self.function(l, side);
            }
            9 if self.plan.forbids > 0 => return self.forbid(),
            10 if self.plan.grants > 0 => {
                if self.plan.guarded {
                    self.side = 0;
                }
                let Some(v) = self.top() else { return false };
                self.w.grant(v);
                self.plan.grants -= 1;
            }
            11 if self.plan.properties > 0 => {
                let (Some(l), n, Some(x)) = (self.any_label(), self.r.below(32) as u8, self.any_label()) else {
                    return false;
                };
                self.w.property(l, n, x);
                self.plan.properties -= 1;
            }
            12 if self.r.chance(1, 10) => return self.profile(),
            _ => return false,
        }
        true
    }

    /// Gives the name few classes, many or all.
    fn name(&mut self, n: u8) {
        let (some, others) = (self.r.byte(), self.r.byte());
        let classes = self.r.pick(&[some & others, some & others, some | others, u8::MAX]);
        self.w.name(n, CLASS_ZERO | classes);
    }

    fn label(&mut self) {
        self.plan.labels -= 1;
        let l = self.free_labels.pop().unwrap_or(5);
        let kind = self.r.pick(&[1, 1, 2, 2, 3]);
        let flag = self.r.chance(1, 8) as u8;
        let half = &mut self.halves[self.side];
        match kind {
            1 => half.plain.push(l),
            2 => half.functions.push(l),
            _ => half.arrays.push(l),
        }
        self.w.label(l, kind, flag);
        if kind == 2 {
            self.unwritten.push((l, self.side));
        }
    }

    fn variable(&mut self) {
        self.plan.variables -= 1;
        let v = self.free_variables.pop().unwrap_or(2);
        let owner = self.scope();
        let mut name = 255;
        if owner == 0 {
            if self.r.chance(1, 4) {
                name = (2 * self.r.below(16) + self.side) as u8;
            }
            self.halves[self.side].top.push(v);
        }
        self.halves[self.side].variables.push(v);
        self.w.variable(v, owner, name);
    }

    fn function(&mut self, l: u8, side: usize) {
        self.side = side;
        let this = self.var();
        let formals = self.six();
        self.w.function(l, this, formals);
    }

    fn forbid(&mut self) -> bool {
        if self.plan.guarded {
            self.side = 1;
        }
        let Some(l) = self.any_label() else { return false };
        self.w.forbid(l);
        self.plan.forbids -= 1;
        true
    }
}
