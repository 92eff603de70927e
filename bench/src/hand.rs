//! The hand-written opponent: a solver of the rules with all the memory it likes.
//!
//! Every rule becomes inclusions between rows, kept as bit sets so that none is laid twice; a stack of rows hands on
//! only the labels that are new. Rows for chains of variables, for returns and for methods are added to those of the table.
//! A row has one word in the small edition and four in the large one.

mod lay;
mod spread;

use crate::sets::{Set, Variables};
use pezvoran::{Answer, Refusal};
use second::program::{Program, BAG};
use second::{read_in, Edition};

#[derive(Clone, Copy)]
struct Call {
    k: u8,
    y: u8,
    this: u8,
    args: [u8; 6],
}

/// What a variable's labels set off, as its records say.
#[derive(Clone, Default)]
struct Uses<const N: usize> {
    /// As object of loads: y and the names.
    loads: Vec<(u8, u32)>,
    /// As object of stores: the names and the value.
    stores: Vec<(u32, u8)>,
    calls: Vec<Call>,
    /// Labels made by new with this callee.
    made: Set<N>,
    /// Scopes of prims on this variable.
    prims: Set<N>,
}

/// A set of labels for each name.
type Names<const N: usize> = [Set<N>; 32];

struct Solver<'a, const N: usize> {
    program: &'a Program,
    functions: Set<N>,
    stored_on: Set<N>,
    rows: Vec<Set<N>>,
    fresh: Vec<Set<N>>,
    /// Rows with labels not yet handed on; last come, first served.
    waiting: Vec<u16>,
    uses: Vec<Uses<N>>,
    /// y and names of the loads from variable 0, by their fresh object.
    fresh_loads: Vec<Vec<(u8, u32)>>,
    // From each row of a kind, the rows of another that include it.
    variables_of_variable: Vec<Variables>,
    properties_of_variable: Vec<Names<N>>,
    /// The names under which there are any of these.
    names_of_variable: Vec<u32>,
    scopes_of_variable: Vec<Set<N>>,
    returns_of_variable: Vec<Set<N>>,
    variables_of_property: Vec<[Variables; 32]>,
    chains_of_prototype: Vec<Set<N>>,
    methods_of_label: Vec<Variables>,
    chains_of_chain: Vec<Set<N>>,
    chains_of_variables: Vec<Variables>,
    variables_of_scope: Vec<Variables>,
    scopes_of_scope: Vec<Set<N>>,
    variables_of_returned: Vec<Variables>,
    /// Which labels each variable reads under each name: `variables_of_property` seen from the other end.
    read_by_variable: Vec<Names<N>>,
}

/// Reads and solves a file: the answer and the table.
pub fn verdict(edition: Edition, file: &[u8]) -> (Answer, Vec<u64>) {
    let program = match read_in(edition, file) {
        Ok(program) => program,
        Err(refusal) => {
            let refusal = Refusal { number: refusal.number, position: refusal.position as u64, guest: None };
            return (Answer::Refused(refusal), Vec::new());
        }
    };
    let table = match edition {
        Edition::Small => Solver::<1>::table(&program),
        Edition::Large => Solver::<4>::table(&program),
    };
    let facts = table.iter().map(|word| word.count_ones()).sum();
    let answer = match (edition.row(&table, edition.s(BAG)) & program.forbidden).lowest() {
        Some(label) => Answer::Leaks { label, guest: 3, facts },
        None => Answer::Confined { facts },
    };
    (answer, table)
}

impl<const N: usize> Solver<'_, N> {
    const EDITION: Edition = if N == 1 { Edition::Small } else { Edition::Large };
    /// Row of the labels on the chains of what variable v holds.
    const CHAINS: usize = Self::EDITION.rows();
    /// Row of what the returns in scope f hand back.
    const RETURNED: usize = Self::CHAINS + 256;
    /// Row of what prim on variable v may call.
    const METHODS: usize = Self::RETURNED + Self::EDITION.labels();
    const ALL_ROWS: usize = Self::METHODS + 256;

    /// The least table of the program.
    fn table(program: &Program) -> Vec<u64> {
        let mut solver = Solver::<N>::new(program);
        solver.lay_all();
        solver.run();
        solver.rows[..Self::CHAINS].iter().flat_map(|row| row.0).collect()
    }

    fn new(program: &Program) -> Solver<'_, N> {
        let labels = Self::EDITION.labels();
        let declared = || program.declared().map(|(l, _)| l);
        Solver {
            program,
            functions: declared().filter(|&l| program.function(l).is_some()).collect(),
            stored_on: declared().filter(|&l| !program.is_built_in(l)).collect(),
            rows: vec![Set::EMPTY; Self::ALL_ROWS],
            fresh: vec![Set::EMPTY; Self::ALL_ROWS],
            waiting: Vec::with_capacity(Self::ALL_ROWS),
            uses: vec![Uses::default(); 256],
            fresh_loads: vec![Vec::new(); labels],
            variables_of_variable: vec![Set::EMPTY; 256],
            properties_of_variable: vec![[Set::EMPTY; 32]; 256],
            names_of_variable: vec![0; 256],
            scopes_of_variable: vec![Set::EMPTY; 256],
            returns_of_variable: vec![Set::EMPTY; 256],
            variables_of_property: vec![[Set::EMPTY; 32]; labels],
            chains_of_prototype: vec![Set::EMPTY; labels],
            methods_of_label: vec![Set::EMPTY; labels],
            chains_of_chain: vec![Set::EMPTY; labels],
            chains_of_variables: vec![Set::EMPTY; labels],
            variables_of_scope: vec![Set::EMPTY; labels],
            scopes_of_scope: vec![Set::EMPTY; labels],
            variables_of_returned: vec![Set::EMPTY; labels],
            read_by_variable: vec![[Set::EMPTY; 32]; 256],
        }
    }

    /// Row of S(v).
    fn s(v: u8) -> usize {
        Self::EDITION.s(v)
    }

    /// Row of H(l,n).
    fn h(l: u8, n: u8) -> usize {
        Self::EDITION.h(l, n)
    }

    /// Row of P(l).
    fn p(l: u8) -> usize {
        Self::EDITION.p(l)
    }

    /// Row of T(k).
    fn t(k: u8) -> usize {
        Self::EDITION.t(k)
    }

    /// The row holds these labels; row 0 drops them.
    fn add(&mut self, row: usize, labels: Set<N>) {
        let new = labels.minus(self.rows[row]);
        if new.is_empty() || row == 0 {
            return;
        }
        if self.fresh[row].is_empty() {
            self.waiting.push(row as u16);
        }
        self.rows[row] |= new;
        self.fresh[row] |= new;
    }
}
