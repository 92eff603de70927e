//! Walks at random through the handset machine of document 01 and tests every value met against a table.

mod start;
mod state;
mod steps;

use crate::prng::Prng;
use crate::program::{Program, Record, GUEST};
use crate::row::Row;
use state::State;

/// What a walk came to see.
#[derive(Clone, Copy, PartialEq, Default, Debug)]
pub struct Stats {
    pub steps: usize,
    /// Steps that did something.
    pub done: usize,
    pub calls: usize,
    pub news: usize,
    pub prims: usize,
    pub returns: usize,
    pub throws: usize,
    pub handed: usize,
    pub catches: usize,
    pub stores: usize,
    pub found: usize,
    pub grants: usize,
    pub objects: usize,
    pub frames: usize,
    pub bag: usize,
    /// Facts of the table that some value of the walk bore out.
    pub witnessed: u32,
}

/// Takes `steps` steps from the start, over a table of full size; an error tells the first value that the table has no fact for,
/// or a forbidden object in the bag although S(1) has no forbidden label.
pub fn walk(program: &Program, table: &[u64], seed: u64, steps: usize) -> Result<Stats, String> {
    let mut state = State::start(program, table, Prng::new(seed))?;
    let mut walker = Walker::new(program);
    for step in 0..steps {
        let done = walker.step(&mut state).map_err(|e| format!("step {step}: {e}"))?;
        state.stats.steps += 1;
        state.stats.done += done as usize;
    }
    state.survey()?;
    state.stats.objects = state.objects.len();
    state.stats.frames = state.frames.len();
    state.stats.bag = state.bag.len();
    state.stats.witnessed = state.seen.iter().map(|row| row.count()).sum();
    Ok(state.stats)
}

/// The facts (as a table) that walks from several seeds bear out.
pub fn witnessed(
    program: &Program,
    table: &[u64],
    seeds: std::ops::Range<u64>,
    steps: usize,
) -> Result<Vec<u64>, String> {
    let mut all = vec![Row::EMPTY; program.edition.rows()];
    for seed in seeds {
        let mut state = State::start(program, table, Prng::new(seed))?;
        let mut walker = Walker::new(program);
        for _ in 0..steps {
            walker.step(&mut state)?;
        }
        for (row, seen) in all.iter_mut().zip(&state.seen) {
            *row |= *seen;
        }
    }
    Ok(program.edition.table(&all))
}

/// Takes a walk and before every twentieth step carries out the statements in the top frame; an error tells that they left another state
/// than they found, the choices to come among it, or what `walk` tells.
pub fn idle(program: &Program, table: &[u64], statements: &[Record], seed: u64, steps: usize) -> Result<(), String> {
    let mut state = State::start(program, table, Prng::new(seed))?;
    let mut walker = Walker::new(program);
    for step in 0..steps {
        if step % 20 == 0 {
            let before = state.clone();
            for &statement in statements {
                state.carry_out(statement, 0)?;
            }
            if state != before {
                return Err(format!("before step {step}: another state"));
            }
        }
        walker.step(&mut state)?;
    }
    Ok(())
}

/// Chooses the steps. Every step that document 01 allows can be chosen at any time.
struct Walker {
    by_scope: Vec<Vec<Record>>,
    statements: Vec<(u8, Record)>,
    grants: Vec<Record>,
    /// The statements of the guest, each as often as it is weighed.
    guest: Vec<Record>,
    /// Steps to take next: the statements of one frame in a row.
    planned: Vec<(Record, usize)>,
}

impl Walker {
    fn new(program: &Program) -> Walker {
        let mut by_scope = vec![Vec::new(); program.edition.labels()];
        let mut statements = Vec::new();
        let mut grants = Vec::new();
        for &record in &program.records {
            match scope_of(record) {
                Some(k) => {
                    by_scope[k as usize].push(record);
                    statements.push((k, record));
                }
                None if matches!(record, Record::Grant { .. }) => grants.push(record),
                None => {}
            }
        }
        by_scope[GUEST as usize].extend(&program.guest);
        let guest = program.guest.iter().flat_map(|&record| vec![record; weight(record)]).collect();
        Walker { by_scope, statements, grants, guest, planned: Vec::new() }
    }

    fn step(&mut self, state: &mut State) -> Result<bool, String> {
        if let Some((record, frame)) = self.planned.pop() {
            return state.carry_out(record, frame);
        }
        match state.r.below(20) {
            0..=7 => {
                let frame = state.some_frame(GUEST).unwrap_or(1);
                let record = state.r.pick(&self.guest);
                state.carry_out(record, frame)
            }
            8..=12 if !self.statements.is_empty() => {
                for _ in 0..8 {
                    let (k, record) = state.r.pick(&self.statements);
                    if let Some(frame) = state.some_frame(k) {
                        return state.carry_out(record, frame);
                    }
                }
                Ok(false)
            }
            13..=16 => {
                self.plan(state);
                Ok(false)
            }
            17 | 18 => state.hand_on(),
            _ if !self.grants.is_empty() => {
                let grant = state.r.pick(&self.grants);
                state.carry_out(grant, 0)
            }
            _ => Ok(false),
        }
    }

    /// Plans statements of one frame: in the order of the file, backwards or shuffled.
    fn plan(&mut self, state: &mut State) {
        let frame = state.recent_frame();
        let mut records = self.by_scope[state.frames[frame].scope as usize].clone();
        if records.len() > 80 {
            let from = state.r.below(records.len() - 80);
            records = records[from..from + 80].to_vec();
        }
        match state.r.below(4) {
            0 => {}
            1 => state.r.shuffle(&mut records),
            _ => records.reverse(),
        }
        self.planned = records.into_iter().map(|record| (record, frame)).collect();
    }
}

/// How often a statement of the guest is chosen beside the others: calls and loads most often.
fn weight(record: Record) -> usize {
    match record {
        Record::Call { .. } => 4,
        Record::Load { .. } => 3,
        Record::Store { .. } | Record::New { .. } => 2,
        _ => 1,
    }
}

/// The scope of a statement; none for grants and for what only the start uses.
fn scope_of(record: Record) -> Option<u8> {
    match record {
        Record::Grant { .. } | Record::Property { .. } | Record::Held { .. } => None,
        Record::Copy { k, .. }
        | Record::Load { k, .. }
        | Record::Store { k, .. }
        | Record::Make { k, .. }
        | Record::MakeFunction { k, .. }
        | Record::Call { k, .. }
        | Record::New { k, .. }
        | Record::Return { k, .. }
        | Record::Throw { k, .. }
        | Record::Catch { k, .. }
        | Record::Prim { k, .. } => Some(k),
    }
}
