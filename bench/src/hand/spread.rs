//! Hands on new labels, row by row, until no row has any.

use super::{Call, Solver};
use crate::sets::{bits, Set, Variables};

impl<const N: usize> Solver<'_, N> {
    pub fn run(&mut self) {
        let (first_h, first_p, first_t) = (Self::h(0, 0), Self::p(0), Self::t(0));
        while let Some(row) = self.waiting.pop() {
            let row = row as usize;
            let new = std::mem::take(&mut self.fresh[row]);
            if row < first_h {
                self.variable(row as u8, new);
            } else if row < first_p {
                self.property(((row - first_h) / 32) as u8, row as u8 % 32, new);
            } else if row < first_t {
                self.chain((row - first_p) as u8, new);
            } else if row < Self::CHAINS {
                self.scope((row - first_t) as u8, new);
            } else if row < Self::RETURNED {
                self.chain_of_variable((row - Self::CHAINS) as u8, new);
            } else if row < Self::METHODS {
                self.add_all(self.variables_of_returned[row - Self::RETURNED], 0, new);
            } else {
                self.methods((row - Self::METHODS) as u8, new);
            }
        }
    }

    fn add_all(&mut self, set: Variables, from: usize, new: Set<N>) {
        for v in set.members() {
            self.add(from + v as usize, new);
        }
    }

    fn variable(&mut self, v: u8, new: Set<N>) {
        let i = v as usize;
        self.add_all(self.variables_of_variable[i], 0, new);
        for n in bits(self.names_of_variable[i]) {
            for l in self.properties_of_variable[i][n as usize].members() {
                self.add(Self::h(l, n), new);
            }
        }
        for k in self.scopes_of_variable[i].members() {
            self.add(Self::t(k), new);
        }
        for f in self.returns_of_variable[i].members() {
            self.add(Self::RETURNED + f as usize, new);
        }
        let uses = std::mem::take(&mut self.uses[i]);
        if !uses.loads.is_empty() || !uses.made.is_empty() || !uses.prims.is_empty() {
            for x in new.members() {
                self.chains_of_variables[x as usize].insert(v);
                self.add(Self::CHAINS + i, self.rows[Self::p(x)]);
            }
        }
        for &(names, value) in &uses.stores {
            self.store(new & self.stored_on, names, value);
        }
        for f in (new & self.functions).members() {
            for call in &uses.calls {
                self.call(f, call);
            }
        }
        self.uses[i] = uses;
    }

    /// The named properties of all these labels include S(value).
    fn store(&mut self, on: Set<N>, names: u32, value: u8) {
        if on.is_empty() {
            return;
        }
        let held = self.rows[Self::s(value)];
        self.names_of_variable[value as usize] |= names;
        for n in bits(names) {
            let properties = &mut self.properties_of_variable[value as usize][n as usize];
            let added = on.minus(*properties);
            *properties |= added;
            for l in added.members() {
                self.add(Self::h(l, n), held);
            }
        }
    }

    fn call(&mut self, f: u8, call: &Call) {
        let function = self.program.functions[f as usize].expect("a function label has a function");
        self.copy(call.this, function.this);
        for (formal, arg) in function.formals.into_iter().zip(call.args) {
            self.copy(arg, formal);
        }
        if self.variables_of_returned[f as usize].insert(call.y) {
            self.add(Self::s(call.y), self.rows[Self::RETURNED + f as usize]);
        }
        self.pass_throws(f, Set::of(call.k));
    }

    fn property(&mut self, m: u8, n: u8, new: Set<N>) {
        self.add_all(self.variables_of_property[m as usize][n as usize], 0, new);
        if n == 1 || n == 2 {
            self.add_all(self.methods_of_label[m as usize], Self::METHODS, new);
        }
        if n == 3 {
            for l in self.chains_of_prototype[m as usize].members() {
                self.add(Self::p(l), new);
            }
        }
    }

    fn chain(&mut self, l: u8, new: Set<N>) {
        for x in new.members() {
            self.chains_of_chain[x as usize].insert(l);
            self.add(Self::p(l), self.rows[Self::p(x)]);
        }
        for k in self.chains_of_chain[l as usize].members() {
            self.add(Self::p(k), new);
        }
        self.add_all(self.chains_of_variables[l as usize], Self::CHAINS, new);
        let loads = std::mem::take(&mut self.fresh_loads[l as usize]);
        for &(y, names) in &loads {
            self.load(y, names, new);
        }
        self.fresh_loads[l as usize] = loads;
    }

    /// S(y) includes the named properties of all these labels.
    fn load(&mut self, y: u8, names: u32, from: Set<N>) {
        for n in bits(names) {
            for m in from.minus(self.read_by_variable[y as usize][n as usize]).members() {
                self.read(y, m, n);
            }
        }
    }

    fn scope(&mut self, k: u8, new: Set<N>) {
        self.add_all(self.variables_of_scope[k as usize], 0, new);
        for outer in self.scopes_of_scope[k as usize].members() {
            self.add(Self::t(outer), new);
        }
    }

    fn chain_of_variable(&mut self, v: u8, new: Set<N>) {
        let uses = std::mem::take(&mut self.uses[v as usize]);
        for &(y, names) in &uses.loads {
            self.load(y, names, new);
        }
        for m in new.members() {
            let made = uses.made.minus(self.chains_of_prototype[m as usize]);
            self.chains_of_prototype[m as usize] |= made;
            for l in made.members() {
                self.add(Self::p(l), self.rows[Self::h(m, 3)]);
            }
            if !uses.prims.is_empty() && self.methods_of_label[m as usize].insert(v) {
                self.add(Self::METHODS + v as usize, self.rows[Self::h(m, 1)] | self.rows[Self::h(m, 2)]);
            }
        }
        self.uses[v as usize] = uses;
    }

    fn methods(&mut self, v: u8, new: Set<N>) {
        for f in (new & self.functions).members() {
            let function = self.program.functions[f as usize].expect("a function label has a function");
            self.copy(v, function.this);
            self.pass_throws(f, self.uses[v as usize].prims);
        }
    }
}
