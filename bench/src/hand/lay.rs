//! Lays the rules of a program: what holds from the start, inclusions known from the start, and what variables set off.

use super::{Call, Solver};
use crate::sets::Set;
use second::program::{Record, Type, BAG};

impl<const N: usize> Solver<'_, N> {
    pub fn lay_all(&mut self) {
        for (l, label) in self.program.declared() {
            let by_type = match label.kind {
                Type::Plain => 1,
                Type::Function => 2,
                Type::Array => 4,
            };
            let by_label: &[u8] = match l {
                0 | 2 | 4 => &[1],
                3 => &[1, 2, 4],
                _ => &[],
            };
            self.add(Self::p(l), [l, by_type].into_iter().chain(by_label.iter().copied()).collect());
        }
        for (v, n) in self.program.named() {
            self.properties_of_variable[v as usize][n as usize].insert(0);
            self.names_of_variable[v as usize] |= 1 << n;
            self.read(v, 0, n);
        }
        let names: Vec<u32> = (0..=255).map(|key| self.names(key)).collect();
        for record in self.program.all_records() {
            self.lay(record, &names);
        }
    }

    fn names(&self, key: u8) -> u32 {
        self.program.names(key).fold(0, |names, n| names | 1 << n)
    }

    fn lay(&mut self, record: Record, names: &[u32]) {
        match record {
            Record::Grant { v } => {
                self.copy(v, BAG);
                self.copy(BAG, v);
            }
            Record::Property { l, n, x } => self.add(Self::h(l, n), Set::of(x)),
            Record::Held { v, l } => self.add(Self::s(v), Set::of(l)),
            Record::Copy { y, source, .. } => self.copy(source, y),
            Record::Load { y, object, key, w, .. } => {
                self.add(Self::s(object), Set::of(w));
                if object == 0 {
                    self.fresh_loads[w as usize].push((y, names[key as usize]));
                } else {
                    self.uses[object as usize].loads.push((y, names[key as usize]));
                }
            }
            Record::Store { object, key, value, .. } => {
                self.uses[object as usize].stores.push((names[key as usize], value));
            }
            Record::Make { y, l, .. } => self.add(Self::s(y), Set::of(l)),
            Record::MakeFunction { y, l, q, .. } => {
                self.add(Self::s(y), Set::of(l));
                self.add(Self::h(l, 3), Set::of(q));
            }
            Record::Call { k, y, callee, this, args } => {
                self.uses[callee as usize].calls.push(Call { k, y, this, args });
            }
            Record::New { k, y, callee, t, l, args } => {
                self.add(Self::s(t), Set::of(l));
                self.copy(t, y);
                self.uses[callee as usize].made.insert(l);
                self.uses[callee as usize].calls.push(Call { k, y, this: t, args });
            }
            Record::Return { k, value } => {
                self.returns_of_variable[value as usize].insert(k);
                self.add(Self::RETURNED + k as usize, self.rows[Self::s(value)]);
            }
            Record::Throw { k, value } => {
                self.scopes_of_variable[value as usize].insert(k);
                self.add(Self::t(k), self.rows[Self::s(value)]);
            }
            Record::Catch { k, y } => {
                self.variables_of_scope[k as usize].insert(y);
                self.add(Self::s(y), self.rows[Self::t(k)]);
            }
            Record::Prim { k, object } => {
                self.uses[object as usize].prims.insert(k);
            }
        }
    }

    /// S(y) includes S(source).
    pub fn copy(&mut self, source: u8, y: u8) {
        if self.variables_of_variable[source as usize].insert(y) {
            self.add(Self::s(y), self.rows[Self::s(source)]);
        }
    }

    /// S(y) includes H(m,n).
    pub fn read(&mut self, y: u8, m: u8, n: u8) {
        self.read_by_variable[y as usize][n as usize].insert(m);
        self.variables_of_property[m as usize][n as usize].insert(y);
        self.add(Self::s(y), self.rows[Self::h(m, n)]);
    }

    /// T(k) includes T(f) for all scopes k.
    pub fn pass_throws(&mut self, f: u8, scopes: Set<N>) {
        let new = scopes.minus(self.scopes_of_scope[f as usize]);
        self.scopes_of_scope[f as usize] |= new;
        for k in new.members() {
            self.add(Self::t(k), self.rows[Self::t(f)]);
        }
    }
}
