//! The machine's start: the top frame, the guest's first frame, and the objects of kinds 7 and 8.

use super::state::{State, Value};
use super::Stats;
use crate::prng::Prng;
use crate::program::{Program, Record, Type, GUEST};
use crate::row::Row;
use std::collections::BTreeMap;

impl<'a> State<'a> {
    pub fn start(program: &'a Program, table: &'a [u64], r: Prng) -> Result<State<'a>, String> {
        let mut state = State {
            program,
            table,
            r,
            objects: Vec::new(),
            frames: Vec::new(),
            by_scope: vec![Vec::new(); program.edition.labels()],
            bag: Vec::new(),
            foreign: Vec::new(),
            first: vec![None; program.edition.labels()],
            seen: vec![Row::EMPTY; program.edition.rows()],
            stats: Stats::default(),
        };
        state.add_frame(0, None, None);
        state.add_frame(GUEST, Some(0), None);
        state.first[1] = Some(state.make(1, None, 0)?);
        for l in [0, 2, 4] {
            state.make_first(l)?;
        }
        let mut count: BTreeMap<(u8, u8), u64> = BTreeMap::new();
        for &record in &program.records {
            match record {
                Record::Property { l, n, x } => {
                    let (holder, value) = (state.make_first(l)?, state.make_first(x)?);
                    let j = count.entry((l, n)).or_insert(0);
                    let pair = (n, *j);
                    *j += 1;
                    state.put(holder, pair, Value::Object(value))?;
                }
                Record::Held { v, l } => {
                    let value = Value::Object(state.make_first(l)?);
                    state.write(0, v, value)?;
                }
                _ => {}
            }
        }
        Ok(state)
    }

    fn make_first(&mut self, l: u8) -> Result<usize, String> {
        if let Some(object) = self.first[l as usize] {
            return Ok(object);
        }
        let prototype = self.prototype_of_type(l);
        let object = self.make(l, prototype, 0)?;
        self.first[l as usize] = Some(object);
        Ok(object)
    }

    /// The prototype of an object of the label that is not made by new.
    pub fn prototype_of_type(&mut self, l: u8) -> Option<usize> {
        let by_type = match self.program.labels[l as usize].map(|label| label.kind) {
            _ if l == GUEST => self.r.pick(&[1, 2, 4]),
            Some(Type::Function) => 2,
            Some(Type::Array) => 4,
            _ => 1,
        };
        self.first[by_type]
    }
}
