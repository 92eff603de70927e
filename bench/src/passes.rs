//! Counts the passes that a file forces: every rule in the order of the file, on the table as it then stands, until a pass
//! adds nothing.
//!
//! A record is left out of a pass where none of the rows it reads has grown in this pass or the one before, which alters
//! no table. The work is one for each record of each pass, for the test whether to leave it out, and one for each row read
//! by a record that is not left out: a measure that does not depend on the machine.

mod records;

use crate::sets::Set;
use second::program::{Program, Record};
use second::solver::chain_without_members;
use second::Edition;
use std::time::{Duration, Instant};

#[derive(Clone, Copy, PartialEq, Eq, Debug, Default)]
pub struct Count {
    pub passes: u64,
    pub work: u64,
}

struct Passes<'a, const N: usize> {
    program: &'a Program,
    edition: Edition,
    names: Vec<Vec<u8>>,
    functions: Set<N>,
    /// For each variable the scopes that return it, and for each scope what it returns so far.
    returned_by: Vec<Set<N>>,
    returned: Vec<Set<N>>,
    table: Vec<Set<N>>,
    /// The pass in which each row last grew.
    grown: Vec<u64>,
    count: Count,
    grew: bool,
    /// Labels whose H, P or T rows or returns grew in this pass, and those of the last one.
    now: Recent<N>,
    before: Recent<N>,
    /// For each record the chains of its object as last computed, and what a prim has found there.
    chains: Vec<Set<N>>,
    found: Vec<Set<N>>,
}

/// Labels of which a row of the kind has grown.
#[derive(Clone, Copy, Default)]
struct Recent<const N: usize> {
    properties: Set<N>,
    chains: Set<N>,
    throws: Set<N>,
    returns: Set<N>,
}

/// The passes until one adds nothing, that one included, and the table; none where counting takes longer than the limit.
pub fn count(program: &Program, limit: Duration) -> Option<(Count, Vec<u64>)> {
    match program.edition {
        Edition::Small => Passes::<1>::count(program, limit),
        Edition::Large => Passes::<4>::count(program, limit),
    }
}

impl<const N: usize> Passes<'_, N> {
    fn count(program: &Program, limit: Duration) -> Option<(Count, Vec<u64>)> {
        let start = Instant::now();
        let records: Vec<Record> = program.guest.iter().chain(&program.records).copied().collect();
        let mut passes = Passes::<N>::new(program, records.len());
        loop {
            passes.count.passes += 1;
            passes.before = std::mem::take(&mut passes.now);
            passes.grew = false;
            passes.count.work += records.len() as u64;
            passes.declared();
            for (i, &record) in records.iter().enumerate() {
                passes.record(i, record);
            }
            if !passes.grew {
                return Some((passes.count, passes.table.iter().flat_map(|row| row.0).collect()));
            }
            if start.elapsed() > limit {
                return None;
            }
        }
    }

    fn new(program: &Program, records: usize) -> Passes<'_, N> {
        let edition = program.edition;
        let mut returned_by = vec![Set::EMPTY; 256];
        for record in program.all_records() {
            if let Record::Return { k, value } = record {
                returned_by[value as usize].insert(k);
            }
        }
        let functions = program.declared().map(|(l, _)| l).filter(|&l| program.function(l).is_some());
        Passes {
            program,
            edition,
            names: (0..=255).map(|key| program.names(key).collect()).collect(),
            functions: functions.collect(),
            returned_by,
            returned: vec![Set::EMPTY; edition.labels()],
            table: vec![Set::EMPTY; edition.rows()],
            grown: vec![0; edition.rows()],
            count: Count::default(),
            grew: false,
            now: Recent::default(),
            before: Recent::default(),
            chains: vec![Set::EMPTY; records],
            found: vec![Set::EMPTY; records],
        }
    }

    fn add(&mut self, row: usize, facts: Set<N>) {
        if facts.minus(self.table[row]).is_empty() || row == 0 {
            return;
        }
        self.table[row] |= facts;
        self.grown[row] = self.count.passes;
        self.grew = true;
        let (first_h, first_p, first_t) = (self.edition.h(0, 0), self.edition.p(0), self.edition.t(0));
        if row < first_h {
            self.now.returns |= self.returned_by[row];
            self.returned_by[row].members().for_each(|f| self.returned[f as usize] |= facts);
        } else if row < first_p {
            self.now.properties.insert(((row - first_h) / 32) as u8);
        } else if row < first_t {
            self.now.chains.insert((row - first_p) as u8);
        } else {
            self.now.throws.insert((row - first_t) as u8);
        }
    }

    fn recent(&self, row: usize) -> bool {
        self.grown[row] + 1 >= self.count.passes
    }

    fn include(&mut self, row: usize, from: usize) {
        self.add(row, self.table[from]);
    }

    /// The P line and the names of variables.
    fn declared(&mut self) {
        let e = self.edition;
        for (l, label) in self.program.declared() {
            self.add(e.p(l), chain_without_members(l, label.kind).labels().collect());
            self.add(e.p(l), self.chains_of(self.table[e.p(l)]));
        }
        for (v, n) in self.program.named() {
            self.include(e.s(v), e.h(0, n));
            self.include(e.h(0, n), e.s(v));
        }
    }

    fn chains_of(&self, holders: Set<N>) -> Set<N> {
        holders.members().fold(Set::EMPTY, |all, l| all | self.table[self.edition.p(l)])
    }
}
