//! The check of a finished table: one use of all rules on the table as given, and nothing concluded is read.

use crate::edition::Edition;
use crate::keys::PROTOTYPE;
use crate::program::{Program, Record, Type, BAG};
use crate::reader::{read_with_table, Refusal};
use crate::row::Row;

/// The check in the small edition.
pub fn check(file: &[u8], table: &[u64]) -> Result<(), Refusal> {
    check_in(Edition::Small, file, table)
}

/// Accepts the table for the file, or refuses: as the verdict does, then 10, then 11.
pub fn check_in(edition: Edition, file: &[u8], table: &[u64]) -> Result<(), Refusal> {
    let program = read_with_table(edition, file, table.len())?;
    check_program(&program, table)
}

/// The same for a file already read; the table must have its full size.
pub fn check_program(program: &Program, table: &[u64]) -> Result<(), Refusal> {
    let e = program.edition;
    let concluded = one_use(program, table);
    if let Some(row) = (0..e.rows()).find(|&row| !(concluded[row] & !e.row(table, row)).is_empty()) {
        return Err(Refusal { number: 10, position: row });
    }
    match (e.row(table, e.s(BAG)) & program.forbidden).lowest() {
        Some(l) => Err(Refusal { number: 11, position: l as usize }),
        None => Ok(()),
    }
}

/// Every fact that a single use of the rules concludes from the facts of the given table.
pub fn one_use(program: &Program, table: &[u64]) -> Vec<Row> {
    let e = program.edition;
    let declared = program.declared_row();
    let mut given: Vec<Row> = (0..e.rows()).map(|row| e.row(table, row) & declared).collect();
    given[e.s(0)] = Row::EMPTY;
    let concluded = vec![Row::EMPTY; e.rows()];
    let mut once = Use { program, given, concluded, returns: vec![Row::EMPTY; e.labels()] };
    for record in program.all_records() {
        if let Record::Return { k, value } = record {
            once.returns[k as usize] |= once.given[e.s(value)];
        }
    }
    once.prototypes();
    once.names();
    for record in program.all_records() {
        once.record(record);
    }
    once.concluded[e.s(0)] = Row::EMPTY;
    once.concluded
}

struct Use<'a> {
    program: &'a Program,
    given: Vec<Row>,
    concluded: Vec<Row>,
    /// What the returns of each scope give by the given table.
    returns: Vec<Row>,
}

impl Use<'_> {
    fn conclude(&mut self, row: usize, facts: Row) {
        self.concluded[row] |= facts;
    }

    /// The labels on the chains of these labels.
    fn chains(&self, holders: Row) -> Row {
        holders.labels().fold(Row::EMPTY, |all, l| all | self.given[self.program.edition.p(l)])
    }

    fn prototypes(&mut self) {
        let e = self.program.edition;
        for (l, label) in self.program.declared() {
            let mut chain = Row::of(l) | self.chains(self.given[e.p(l)]);
            chain |= match label.kind {
                Type::Plain => Row::of(1),
                Type::Function => Row::of(2),
                Type::Array => Row::of(4),
            };
            if [0, 2, 4].contains(&l) {
                chain |= Row::of(1);
            }
            if l == 3 {
                chain |= Row::of(1) | Row::of(2) | Row::of(4);
            }
            self.conclude(e.p(l), chain);
        }
    }

    fn names(&mut self) {
        let e = self.program.edition;
        for (v, n) in self.program.named() {
            self.conclude(e.s(v), self.given[e.h(0, n)]);
            self.conclude(e.h(0, n), self.given[e.s(v)]);
        }
    }

    fn record(&mut self, record: Record) {
        let e = self.program.edition;
        match record {
            Record::Grant { v } => {
                self.conclude(e.s(v), self.given[e.s(BAG)]);
                self.conclude(e.s(BAG), self.given[e.s(v)]);
            }
            Record::Property { l, n, x } => self.conclude(e.h(l, n), Row::of(x)),
            Record::Held { v, l } => self.conclude(e.s(v), Row::of(l)),
            Record::Copy { y, source, .. } => self.conclude(e.s(y), self.given[e.s(source)]),
            Record::Load { y, object, key, w, .. } => {
                self.conclude(e.s(object), Row::of(w));
                for m in self.chains(self.given[e.s(object)] | Row::of(w)).labels() {
                    for n in self.program.names(key) {
                        self.conclude(e.s(y), self.given[e.h(m, n)]);
                    }
                }
            }
            Record::Store { object, key, value, .. } => {
                for l in self.given[e.s(object)].labels().filter(|&l| !self.program.is_built_in(l)) {
                    for n in self.program.names(key) {
                        self.conclude(e.h(l, n), self.given[e.s(value)]);
                    }
                }
            }
            Record::Make { y, l, .. } => self.conclude(e.s(y), Row::of(l)),
            Record::MakeFunction { y, l, q, .. } => {
                self.conclude(e.s(y), Row::of(l));
                self.conclude(e.h(l, PROTOTYPE), Row::of(q));
            }
            Record::Call { k, y, callee, this, args } => self.call(k, y, callee, this, args),
            Record::New { k, y, callee, t, l, args } => {
                self.conclude(e.s(t), Row::of(l));
                self.conclude(e.s(y), self.given[e.s(t)]);
                for m in self.chains(self.given[e.s(callee)]).labels() {
                    self.conclude(e.p(l), self.given[e.h(m, PROTOTYPE)]);
                }
                self.call(k, y, callee, t, args);
            }
            Record::Return { .. } => {}
            Record::Throw { k, value } => self.conclude(e.t(k), self.given[e.s(value)]),
            Record::Catch { k, y } => self.conclude(e.s(y), self.given[e.t(k)]),
            Record::Prim { k, object } => {
                for m in self.chains(self.given[e.s(object)]).labels() {
                    for f in (self.given[e.h(m, 1)] | self.given[e.h(m, 2)]).labels() {
                        if let Some(function) = self.program.function(f) {
                            self.conclude(e.s(function.this), self.given[e.s(object)]);
                            self.conclude(e.t(k), self.given[e.t(f)]);
                        }
                    }
                }
            }
        }
    }

    fn call(&mut self, k: u8, y: u8, callee: u8, this: u8, args: [u8; 6]) {
        let e = self.program.edition;
        for f in self.given[e.s(callee)].labels() {
            let Some(function) = self.program.function(f) else { continue };
            self.conclude(e.s(function.this), self.given[e.s(this)]);
            for i in 0..6 {
                self.conclude(e.s(function.formals[i]), self.given[e.s(args[i])]);
            }
            self.conclude(e.s(y), self.returns[f as usize]);
            self.conclude(e.t(k), self.given[e.t(f)]);
        }
    }
}
