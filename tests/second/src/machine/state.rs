//! The machine's objects, frames and bag; every read and write is tested against the table.

use super::Stats;
use crate::prng::Prng;
use crate::program::{Program, BAG, GUEST};
use crate::row::Row;
use std::collections::BTreeMap;

#[derive(Clone, Copy, PartialEq, Eq, PartialOrd, Ord, Debug)]
pub enum Value {
    Primitive,
    Object(usize),
}

/// A name and a whole number.
pub type Pair = (u8, u64);

#[derive(Clone, PartialEq)]
pub struct Object {
    pub label: u8,
    pub prototype: Option<usize>,
    /// The frame it was made in; only used where the label is a function label.
    pub frame: usize,
    pub pairs: BTreeMap<Pair, Value>,
}

#[derive(Clone, Copy, PartialEq)]
pub struct Caller {
    pub frame: usize,
    pub y: u8,
    pub by_new: bool,
}

#[derive(Clone, PartialEq)]
pub struct Frame {
    pub scope: u8,
    /// The frame that the called function object keeps.
    pub outward: Option<usize>,
    pub caller: Option<Caller>,
    pub variables: BTreeMap<u8, Value>,
    /// Values thrown in the frame or handed to it.
    pub thrown: Vec<Value>,
}

#[derive(Clone, PartialEq)]
pub struct State<'a> {
    pub program: &'a Program,
    pub table: &'a [u64],
    pub r: Prng,
    pub objects: Vec<Object>,
    /// Frame 0 is the top frame, frame 1 the guest's first.
    pub frames: Vec<Frame>,
    pub by_scope: Vec<Vec<usize>>,
    pub bag: Vec<usize>,
    /// Objects in the bag that the guest did not make.
    pub foreign: Vec<usize>,
    /// The one object of labels 0, 1, 2, 4 and of the labels of kinds 7 and 8.
    pub first: Vec<Option<usize>>,
    pub seen: Vec<Row>,
    pub stats: Stats,
}

impl State<'_> {
    /// The object of label 1.
    pub fn prototype_one(&self) -> Option<usize> {
        self.first[1]
    }

    /// A value of this label is in this row.
    fn fact(&mut self, row: usize, label: u8) -> Result<(), String> {
        if !self.program.edition.row(self.table, row).has(label) {
            return Err(format!("row {row} lacks label {label}"));
        }
        self.seen[row] |= Row::of(label);
        Ok(())
    }

    fn fact_of(&mut self, row: usize, value: Value) -> Result<(), String> {
        match value {
            Value::Primitive => Ok(()),
            Value::Object(o) => self.fact(row, self.objects[o].label),
        }
    }

    pub fn make(&mut self, label: u8, prototype: Option<usize>, frame: usize) -> Result<usize, String> {
        self.objects.push(Object { label, prototype, frame, pairs: BTreeMap::new() });
        let object = self.objects.len() - 1;
        let mut next = Some(object);
        while let Some(o) = next {
            self.fact(self.program.edition.p(label), self.objects[o].label)?;
            next = self.objects[o].prototype;
        }
        Ok(object)
    }

    pub fn add_frame(&mut self, scope: u8, outward: Option<usize>, caller: Option<Caller>) -> usize {
        self.frames.push(Frame { scope, outward, caller, variables: BTreeMap::new(), thrown: Vec::new() });
        self.by_scope[scope as usize].push(self.frames.len() - 1);
        self.frames.len() - 1
    }

    /// The nearest frame, outward, of the owner scope of the variable.
    fn home(&self, frame: usize, v: u8) -> Option<usize> {
        let owner = self.program.variables[v as usize]?.owner;
        let mut next = Some(frame);
        while let Some(f) = next {
            if self.frames[f].scope == owner {
                return Some(f);
            }
            next = self.frames[f].outward;
        }
        None
    }

    fn name_of(&self, v: u8) -> Option<u8> {
        self.program.variables[v as usize]?.name
    }

    /// What the variable holds, seen from the frame; of the bag, any value ever put there.
    pub fn read(&mut self, frame: usize, v: u8) -> Result<Value, String> {
        if v == 0 {
            return Ok(Value::Primitive);
        }
        let value = if v == BAG {
            self.from_bag()
        } else if let Some(n) = self.name_of(v) {
            self.first[0].and_then(|o| self.objects[o].pairs.get(&(n, 0)).copied()).unwrap_or(Value::Primitive)
        } else {
            self.home(frame, v).and_then(|f| self.frames[f].variables.get(&v).copied()).unwrap_or(Value::Primitive)
        };
        self.fact_of(self.program.edition.s(v), value)?;
        Ok(value)
    }

    fn from_bag(&mut self) -> Value {
        if self.bag.is_empty() || self.r.chance(1, 15) {
            Value::Primitive
        } else if !self.foreign.is_empty() && self.r.chance(1, 2) {
            Value::Object(self.r.pick(&self.foreign))
        } else {
            Value::Object(self.r.pick(&self.bag))
        }
    }

    pub fn write(&mut self, frame: usize, v: u8, value: Value) -> Result<(), String> {
        if v == 0 {
            return Ok(());
        }
        if v == BAG {
            return self.put_in_bag(value);
        }
        if let (Some(n), Some(global)) = (self.name_of(v), self.first[0]) {
            self.fact_of(self.program.edition.s(v), value)?;
            return self.put(global, (n, 0), value);
        }
        if let Some(home) = self.home(frame, v) {
            self.fact_of(self.program.edition.s(v), value)?;
            self.frames[home].variables.insert(v, value);
        }
        Ok(())
    }

    /// True where the table says that the guest holds nothing forbidden.
    fn confined(&self) -> bool {
        let e = self.program.edition;
        (e.row(self.table, e.s(BAG)) & self.program.forbidden).is_empty()
    }

    fn put_in_bag(&mut self, value: Value) -> Result<(), String> {
        self.fact_of(self.program.edition.s(BAG), value)?;
        let Value::Object(o) = value else { return Ok(()) };
        let label = self.objects[o].label;
        if self.confined() && self.program.forbidden.has(label) {
            return Err(format!("the guest holds forbidden label {label}"));
        }
        if !self.bag.contains(&o) {
            self.bag.push(o);
            if label != GUEST {
                self.foreign.push(o);
            }
        }
        Ok(())
    }

    pub fn put(&mut self, object: usize, pair: Pair, value: Value) -> Result<(), String> {
        self.fact_of(self.program.edition.h(self.objects[object].label, pair.0), value)?;
        self.objects[object].pairs.insert(pair, value);
        Ok(())
    }

    /// What the object or the nearest one along its prototypes has under the pair; nothing found is a primitive.
    pub fn look_up(&self, object: usize, pair: Pair) -> Value {
        let mut next = Some(object);
        while let Some(o) = next {
            if let Some(&value) = self.objects[o].pairs.get(&pair) {
                return value;
            }
            next = self.objects[o].prototype;
        }
        Value::Primitive
    }

    pub fn add_thrown(&mut self, frame: usize, value: Value) -> Result<(), String> {
        self.fact_of(self.program.edition.t(self.frames[frame].scope), value)?;
        if !self.frames[frame].thrown.contains(&value) {
            self.frames[frame].thrown.push(value);
        }
        Ok(())
    }

    /// Tests the whole state once more, independently of the writes that led to it.
    pub fn survey(&mut self) -> Result<(), String> {
        let e = self.program.edition;
        let mut facts = Vec::new();
        let label = |value: &Value| match value {
            Value::Primitive => None,
            Value::Object(o) => Some(self.objects[*o].label),
        };
        for object in &self.objects {
            facts.extend(object.pairs.iter().map(|(pair, value)| (e.h(object.label, pair.0), label(value))));
            let mut next = object.prototype;
            while let Some(o) = next {
                facts.push((e.p(object.label), Some(self.objects[o].label)));
                next = self.objects[o].prototype;
            }
        }
        for frame in &self.frames {
            facts.extend(frame.variables.iter().map(|(v, value)| (e.s(*v), label(value))));
            facts.extend(frame.thrown.iter().map(|value| (e.t(frame.scope), label(value))));
        }
        facts.extend(self.bag.iter().map(|o| (e.s(BAG), Some(self.objects[*o].label))));
        for (row, label) in facts {
            if let Some(label) = label {
                if row == e.s(BAG) && self.confined() && self.program.forbidden.has(label) {
                    return Err(format!("survey: the guest holds forbidden label {label}"));
                }
                self.fact(row, label).map_err(|e| format!("survey: {e}"))?;
            }
        }
        Ok(())
    }
}
