//! Solves the rules of document 01: every rule is an inclusion between rows, or waits for a label in a row.

use crate::edition::Edition;
use crate::graph::Graph;
use crate::keys::PROTOTYPE;
use crate::program::{Program, Record, Type, BAG};
use crate::reader::{read_with_table, Refusal};
use crate::row::Row;

#[derive(Clone, Copy, PartialEq, Eq, Debug)]
pub enum Verdict {
    Confined,
    /// The lowest forbidden label in S(1).
    Leaks(u8),
}

#[derive(Clone, PartialEq, Eq, Debug)]
pub struct Answer {
    pub table: Vec<u64>,
    pub verdict: Verdict,
    pub facts: u32,
}

/// Helper rows, after those of the table.
impl Edition {
    /// The labels on the chains of what variable v may hold.
    fn chain(self, v: u8) -> usize {
        self.rows() + v as usize
    }

    /// What prim on variable v may call, that is H(m,1) and H(m,2) for m on its chains.
    fn methods(self, v: u8) -> usize {
        self.rows() + 256 + v as usize
    }

    /// What the returns in scope f may give.
    fn returned(self, f: u8) -> usize {
        self.rows() + 512 + f as usize
    }

    fn all_rows(self) -> usize {
        self.rows() + 512 + self.labels()
    }
}

/// What follows when a label x enters the row that is watched.
#[derive(Clone, Copy)]
enum Wait {
    /// On P(l): P(l) includes P(x).
    Chain { l: u8 },
    /// On S(v): chain(v) includes P(x).
    ChainOfVariable { v: u8 },
    /// On chain(object) and on P(w): S(y) includes H(x,n).
    Load { y: u8, key: u8 },
    /// On S(object): H(x,n) includes S(value), x not built-in.
    Store { key: u8, value: u8 },
    /// On S(callee): the rule of kind 21 for function label x.
    Call { k: u8, y: u8, this: u8, args: [u8; 6] },
    /// On chain(callee): P(l) includes H(x,3).
    Prototype { l: u8 },
    /// On chain(object): methods(object) includes H(x,1) and H(x,2).
    Methods { object: u8 },
    /// On methods(object): the rule of kind 26 for function label x.
    Prim { k: u8, object: u8 },
}

struct Solver<'a> {
    program: &'a Program,
    graph: Graph,
    waits: Vec<Vec<Wait>>,
    /// The names of each key byte.
    names: Vec<Vec<u8>>,
}

/// The least fact set of the rules, the verdict and the number of facts.
pub fn solve(program: &Program) -> Answer {
    let e = program.edition;
    let mut solver = Solver {
        program,
        graph: Graph::new(e.all_rows()),
        waits: vec![Vec::new(); e.all_rows()],
        names: (0..=255).map(|key| program.names(key).collect()).collect(),
    };
    solver.start();
    for record in program.all_records() {
        solver.lay(record);
    }
    solver.run();
    let table = e.table(&solver.graph.rows()[..e.rows()]);
    let facts = table.iter().map(|word| word.count_ones()).sum();
    Answer { verdict: verdict_of(program, &table), facts, table }
}

/// The whole operation in the small edition.
pub fn verdict(file: &[u8], table: &mut [u64]) -> Result<Answer, Refusal> {
    verdict_in(Edition::Small, file, table)
}

/// The whole operation: refusals first, else the first words of the lent table, as many as the edition's tables have, are written.
pub fn verdict_in(edition: Edition, file: &[u8], table: &mut [u64]) -> Result<Answer, Refusal> {
    let answer = solve(&read_with_table(edition, file, table.len())?);
    table[..edition.table_words()].copy_from_slice(&answer.table);
    Ok(answer)
}

/// Leaks if S(1) holds a forbidden label.
pub fn verdict_of(program: &Program, table: &[u64]) -> Verdict {
    let bag = program.edition.row(table, program.edition.s(BAG));
    match (bag & program.forbidden).lowest() {
        Some(l) => Verdict::Leaks(l),
        None => Verdict::Confined,
    }
}

/// What the P line gives label l of that type without any premise.
pub fn chain_without_members(l: u8, kind: Type) -> Row {
    let by_type = match kind {
        Type::Plain => 1,
        Type::Function => 2,
        Type::Array => 4,
    };
    let by_label: &[u8] = match l {
        0 | 2 | 4 => &[1],
        3 => &[1, 2, 4],
        _ => &[],
    };
    [l, by_type].into_iter().chain(by_label.iter().copied()).collect()
}

impl Solver<'_> {
    /// The P line, the names of variables, and the chains of variables.
    fn start(&mut self) {
        let e = self.program.edition;
        for (l, label) in self.program.declared() {
            self.wait(e.p(l), Wait::Chain { l });
            self.graph.hold(e.p(l), chain_without_members(l, label.kind));
        }
        for (v, n) in self.program.named() {
            self.graph.include(e.s(v), e.h(0, n));
            self.graph.include(e.h(0, n), e.s(v));
        }
        for v in 1..=255 {
            self.wait(e.s(v), Wait::ChainOfVariable { v });
        }
    }

    fn wait(&mut self, row: usize, wait: Wait) {
        self.waits[row].push(wait);
    }

    /// Lays the rules of one record.
    fn lay(&mut self, record: Record) {
        let e = self.program.edition;
        match record {
            Record::Grant { v } => {
                self.graph.include(e.s(BAG), e.s(v));
                self.graph.include(e.s(v), e.s(BAG));
            }
            Record::Property { l, n, x } => self.graph.hold(e.h(l, n), Row::of(x)),
            Record::Held { v, l } => self.graph.hold(e.s(v), Row::of(l)),
            Record::Copy { y, source, .. } => self.graph.include(e.s(y), e.s(source)),
            Record::Load { y, object, key, w, .. } => {
                self.graph.hold(e.s(object), Row::of(w));
                self.wait(e.p(w), Wait::Load { y, key });
                self.wait(e.chain(object), Wait::Load { y, key });
            }
            Record::Store { object, key, value, .. } => self.wait(e.s(object), Wait::Store { key, value }),
            Record::Make { y, l, .. } => self.graph.hold(e.s(y), Row::of(l)),
            Record::MakeFunction { y, l, q, .. } => {
                self.graph.hold(e.s(y), Row::of(l));
                self.graph.hold(e.h(l, PROTOTYPE), Row::of(q));
            }
            Record::Call { k, y, callee, this, args } => self.wait(e.s(callee), Wait::Call { k, y, this, args }),
            Record::New { k, y, callee, t, l, args } => {
                self.graph.hold(e.s(t), Row::of(l));
                self.graph.include(e.s(y), e.s(t));
                self.wait(e.chain(callee), Wait::Prototype { l });
                self.wait(e.s(callee), Wait::Call { k, y, this: t, args });
            }
            Record::Return { k, value } => self.graph.include(e.returned(k), e.s(value)),
            Record::Throw { k, value } => self.graph.include(e.t(k), e.s(value)),
            Record::Catch { k, y } => self.graph.include(e.s(y), e.t(k)),
            Record::Prim { k, object } => {
                self.wait(e.chain(object), Wait::Methods { object });
                self.wait(e.methods(object), Wait::Prim { k, object });
            }
        }
    }

    /// Every label that enters a row sets off what waits there, until no label is new.
    fn run(&mut self) {
        while let Some((row, fresh)) = self.graph.next() {
            for i in 0..self.waits[row].len() {
                let wait = self.waits[row][i];
                for x in fresh.labels() {
                    self.follow(wait, x);
                }
            }
        }
    }

    fn follow(&mut self, wait: Wait, x: u8) {
        let e = self.program.edition;
        match wait {
            Wait::Chain { l } => self.graph.include(e.p(l), e.p(x)),
            Wait::ChainOfVariable { v } => self.graph.include(e.chain(v), e.p(x)),
            Wait::Load { y, key } => {
                for &n in &self.names[key as usize] {
                    self.graph.include(e.s(y), e.h(x, n));
                }
            }
            Wait::Store { key, value } => {
                if !self.program.is_built_in(x) {
                    for &n in &self.names[key as usize] {
                        self.graph.include(e.h(x, n), e.s(value));
                    }
                }
            }
            Wait::Call { k, y, this, args } => {
                if let Some(f) = self.program.function(x) {
                    self.graph.include(e.s(f.this), e.s(this));
                    for (formal, arg) in f.formals.into_iter().zip(args) {
                        self.graph.include(e.s(formal), e.s(arg));
                    }
                    self.graph.include(e.s(y), e.returned(x));
                    self.graph.include(e.t(k), e.t(x));
                }
            }
            Wait::Prototype { l } => self.graph.include(e.p(l), e.h(x, PROTOTYPE)),
            Wait::Methods { object } => {
                self.graph.include(e.methods(object), e.h(x, 1));
                self.graph.include(e.methods(object), e.h(x, 2));
            }
            Wait::Prim { k, object } => {
                if let Some(f) = self.program.function(x) {
                    self.graph.include(e.s(f.this), e.s(object));
                    self.graph.include(e.t(k), e.t(x));
                }
            }
        }
    }
}
