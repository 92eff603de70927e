//! The rules of one record, unless none of the rows it reads has grown.

use super::Passes;
use crate::sets::Set;
use second::program::{Record, BAG};

impl<const N: usize> Passes<'_, N> {
    /// The labels on the chains of the holders whose properties a record has to read again; the holders are those of `row`.
    fn labels_to_visit(&mut self, record: usize, row: usize, holders: Set<N>) -> Set<N> {
        if self.recent(row) || !((self.now.chains | self.before.chains) & holders).is_empty() {
            self.chains[record] = self.chains_of(holders);
            return self.chains[record];
        }
        self.chains[record] & (self.now.properties | self.before.properties)
    }

    pub fn record(&mut self, i: usize, record: Record) {
        let e = self.edition;
        match record {
            Record::Grant { v } => {
                self.include(e.s(BAG), e.s(v));
                self.include(e.s(v), e.s(BAG));
            }
            Record::Property { l, n, x } => self.add(e.h(l, n), Set::of(x)),
            Record::Held { v, l } => self.add(e.s(v), Set::of(l)),
            Record::Copy { y, source, .. } => self.include(e.s(y), e.s(source)),
            Record::Load { y, object, key, w, .. } => {
                self.add(e.s(object), Set::of(w));
                let from = self.labels_to_visit(i, e.s(object), self.table[e.s(object)] | Set::of(w));
                let names = &self.names[key as usize];
                self.count.work += from.count() * names.len() as u64;
                let found = from
                    .members()
                    .fold(Set::EMPTY, |all, m| names.iter().fold(all, |all, &n| all | self.table[e.h(m, n)]));
                self.add(e.s(y), found);
            }
            Record::Store { object, key, value, .. } => {
                if self.recent(e.s(object)) || self.recent(e.s(value)) {
                    self.store(object, key, value);
                }
            }
            Record::Make { y, l, .. } => self.add(e.s(y), Set::of(l)),
            Record::MakeFunction { y, l, q, .. } => {
                self.add(e.s(y), Set::of(l));
                self.add(e.h(l, 3), Set::of(q));
            }
            Record::Call { k, y, callee, this, args } => self.call(k, y, callee, this, args),
            Record::New { k, y, callee, t, l, args } => {
                self.add(e.s(t), Set::of(l));
                self.include(e.s(y), e.s(t));
                let from = self.labels_to_visit(i, e.s(callee), self.table[e.s(callee)]);
                let found = from.members().fold(Set::EMPTY, |all, m| all | self.table[e.h(m, 3)]);
                self.count.work += from.count();
                self.add(e.p(l), found);
                self.call(k, y, callee, t, args);
            }
            Record::Return { .. } => {}
            Record::Throw { k, value } => self.include(e.t(k), e.s(value)),
            Record::Catch { k, y } => self.include(e.s(y), e.t(k)),
            Record::Prim { k, object } => self.prim(i, k, object),
        }
    }

    fn store(&mut self, object: u8, key: u8, value: u8) {
        let e = self.edition;
        self.count.work += self.table[e.s(object)].count() * self.names[key as usize].len() as u64;
        for l in self.table[e.s(object)].members().filter(|&l| !self.program.is_built_in(l)) {
            for i in 0..self.names[key as usize].len() {
                self.include(e.h(l, self.names[key as usize][i]), e.s(value));
            }
        }
    }

    fn call(&mut self, k: u8, y: u8, callee: u8, this: u8, args: [u8; 6]) {
        let e = self.edition;
        let called = self.table[e.s(callee)] & self.functions;
        let changed = self.now.throws | self.before.throws | self.now.returns | self.before.returns;
        let passed = [callee, this].iter().chain(&args).any(|&v| self.recent(e.s(v)));
        if (called & changed).is_empty() && !passed {
            return;
        }
        let entered = if passed { called } else { called & changed };
        self.count.work += entered.count() * if passed { 9 } else { 2 };
        for f in entered.members() {
            let function = self.program.functions[f as usize].expect("a function label has a function");
            if passed {
                self.include(e.s(function.this), e.s(this));
                for (formal, arg) in function.formals.into_iter().zip(args) {
                    self.include(e.s(formal), e.s(arg));
                }
            }
            self.add(e.s(y), self.returned[f as usize]);
            self.include(e.t(k), e.t(f));
        }
    }

    fn prim(&mut self, i: usize, k: u8, object: u8) {
        let e = self.edition;
        let from = self.labels_to_visit(i, e.s(object), self.table[e.s(object)]);
        let found = from.members().fold(self.found[i], |all, m| all | self.table[e.h(m, 1)] | self.table[e.h(m, 2)]);
        let again = found != self.found[i] || self.recent(e.s(object));
        self.found[i] = found;
        let called = if again { found } else { found & (self.now.throws | self.before.throws) } & self.functions;
        self.count.work += 2 * (from.count() + called.count());
        for f in called.members() {
            let function = self.program.functions[f as usize].expect("a function label has a function");
            self.include(e.s(function.this), e.s(object));
            self.include(e.t(k), e.t(f));
        }
    }
}
