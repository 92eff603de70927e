//! The single steps of the machine, and the choice of frames, pairs and thrown values.

use super::state::{Caller, Pair, State, Value};
use crate::keys::PROTOTYPE;
use crate::program::{Record, BAG};

/// No more frames or objects than this; a step that would make more is not taken.
const MOST: usize = 3000;

impl State<'_> {
    /// Carries out one statement or grant in the frame; tells whether it did anything.
    pub fn carry_out(&mut self, record: Record, frame: usize) -> Result<bool, String> {
        if self.frames.len() > MOST || self.objects.len() > MOST {
            if let Record::Call { .. } | Record::New { .. } | Record::Prim { .. } | Record::Load { .. } = record {
                return Ok(false);
            }
            if let Record::Make { .. } | Record::MakeFunction { .. } = record {
                return Ok(false);
            }
        }
        match record {
            Record::Grant { v } => {
                let (from, to) = if self.r.chance(1, 2) { (v, BAG) } else { (BAG, v) };
                let value = self.read(frame, from)?;
                self.write(frame, to, value)?;
                self.stats.grants += 1;
                Ok(value != Value::Primitive)
            }
            Record::Property { .. } | Record::Held { .. } => Ok(false),
            Record::Copy { y, source, .. } => {
                let value = self.read(frame, source)?;
                self.write(frame, y, value)?;
                Ok(value != Value::Primitive)
            }
            Record::Load { y, object, key, w, .. } => self.load(frame, y, object, key, w),
            Record::Store { object, key, value, .. } => self.store(frame, object, key, value),
            Record::Make { y, l, .. } => {
                let prototype = self.prototype_of_type(l);
                let object = self.make(l, prototype, frame)?;
                self.write(frame, y, Value::Object(object))?;
                Ok(true)
            }
            Record::MakeFunction { y, l, q, .. } => {
                let prototypes = (self.prototype_of_type(l), self.prototype_of_type(q));
                let function = self.make(l, prototypes.0, frame)?;
                let property = self.make(q, prototypes.1, frame)?;
                self.put(function, (PROTOTYPE, 0), Value::Object(property))?;
                self.write(frame, y, Value::Object(function))?;
                Ok(true)
            }
            Record::Call { y, callee, this, args, .. } => {
                let (callee, this) = (self.read(frame, callee)?, self.read(frame, this)?);
                let args = self.read_six(frame, args)?;
                let caller = Caller { frame, y, by_new: false };
                let done = self.call(caller, callee, this, args)?;
                self.stats.calls += done as usize;
                Ok(done)
            }
            Record::New { y, callee, t, l, args, .. } => self.new_object(frame, y, callee, t, l, args),
            Record::Return { value, .. } => self.give_back(frame, value),
            Record::Throw { value, .. } => {
                let value = self.read(frame, value)?;
                self.add_thrown(frame, value)?;
                self.stats.throws += 1;
                Ok(value != Value::Primitive)
            }
            Record::Catch { y, .. } => {
                if self.frames[frame].thrown.is_empty() {
                    return Ok(false);
                }
                let value = self.r.pick(&self.frames[frame].thrown);
                self.write(frame, y, value)?;
                self.stats.catches += 1;
                Ok(true)
            }
            Record::Prim { object, .. } => self.prim(frame, object),
        }
    }

    /// Hands a value thrown in some frame, or handed to it, to that frame's caller.
    pub fn hand_on(&mut self) -> Result<bool, String> {
        for _ in 0..10 {
            let frame = self.r.below(self.frames.len());
            let thrown = &self.frames[frame].thrown;
            if let (Some(caller), false) = (self.frames[frame].caller, thrown.is_empty()) {
                let value = self.r.pick(thrown);
                self.add_thrown(caller.frame, value)?;
                self.stats.handed += 1;
                return Ok(true);
            }
        }
        Ok(false)
    }

    fn load(&mut self, frame: usize, y: u8, object: u8, key: u8, w: u8) -> Result<bool, String> {
        let start = match self.read(frame, object)? {
            Value::Object(o) => o,
            Value::Primitive => {
                let prototype = self.prototype_of_type(w);
                self.make(w, prototype, frame)?
            }
        };
        let Some(pair) = self.some_pair(key, start) else { return Ok(false) };
        let value = self.look_up(start, pair);
        self.write(frame, y, value)?;
        self.stats.found += (value != Value::Primitive) as usize;
        Ok(value != Value::Primitive)
    }

    fn store(&mut self, frame: usize, object: u8, key: u8, value: u8) -> Result<bool, String> {
        let (object, value) = (self.read(frame, object)?, self.read(frame, value)?);
        let Value::Object(o) = object else { return Ok(false) };
        if self.program.is_built_in(self.objects[o].label) {
            return Ok(false);
        }
        let Some(pair) = self.some_pair(key, o) else { return Ok(false) };
        self.put(o, pair, value)?;
        self.stats.stores += 1;
        Ok(true)
    }

    fn read_six(&mut self, frame: usize, args: [u8; 6]) -> Result<[Value; 6], String> {
        let mut values = [Value::Primitive; 6];
        for i in 0..6 {
            values[i] = self.read(frame, args[i])?;
        }
        Ok(values)
    }

    /// Makes a frame for the called function; calling what is no function does nothing.
    fn call(&mut self, caller: Caller, callee: Value, this: Value, args: [Value; 6]) -> Result<bool, String> {
        let Value::Object(o) = callee else { return Ok(false) };
        let label = self.objects[o].label;
        let Some(function) = self.program.function(label) else { return Ok(false) };
        let frame = self.add_frame(label, Some(self.objects[o].frame), Some(caller));
        self.write(frame, function.this, this)?;
        for i in 0..6 {
            self.write(frame, function.formals[i], args[i])?;
        }
        Ok(true)
    }

    fn new_object(&mut self, frame: usize, y: u8, callee: u8, t: u8, l: u8, args: [u8; 6]) -> Result<bool, String> {
        let callee = self.read(frame, callee)?;
        let args = self.read_six(frame, args)?;
        let Value::Object(o) = callee else { return Ok(false) };
        if self.program.function(self.objects[o].label).is_none() {
            return Ok(false);
        }
        let pair = self.some_pair(PROTOTYPE, o).unwrap_or((PROTOTYPE, 0));
        let prototype = match self.look_up(o, pair) {
            Value::Object(found) => Some(found),
            Value::Primitive => self.prototype_one(),
        };
        let made = Value::Object(self.make(l, prototype, frame)?);
        self.write(frame, t, made)?;
        self.write(frame, y, made)?;
        self.stats.news += 1;
        self.call(Caller { frame, y, by_new: true }, callee, made, args)
    }

    /// A frame without a caller, as the top frame is, has nobody to give the value to.
    fn give_back(&mut self, frame: usize, value: u8) -> Result<bool, String> {
        let Some(caller) = self.frames[frame].caller else { return Ok(false) };
        let value = self.read(frame, value)?;
        if caller.by_new && value == Value::Primitive {
            return Ok(false);
        }
        self.write(caller.frame, caller.y, value)?;
        self.stats.returns += 1;
        Ok(true)
    }

    fn prim(&mut self, frame: usize, object: u8) -> Result<bool, String> {
        let object = self.read(frame, object)?;
        let Value::Object(o) = object else { return Ok(false) };
        let name = self.r.pick(&[1, 2]);
        let pair = self.some_pair(name, o).unwrap_or((name, 0));
        let method = self.look_up(o, pair);
        let caller = Caller { frame, y: 0, by_new: false };
        let done = self.call(caller, method, object, [Value::Primitive; 6])?;
        self.stats.prims += done as usize;
        Ok(done)
    }

    /// A pair that the key allows, most often one that is found from the object; none where the key has no name.
    fn some_pair(&mut self, key: u8, object: usize) -> Option<Pair> {
        let mut found = Vec::new();
        let mut next = Some(object);
        while let Some(o) = next {
            let pairs = self.objects[o].pairs.keys();
            found.extend(pairs.filter(|pair| self.program.key_has(key, pair.0)));
            next = self.objects[o].prototype;
        }
        if !found.is_empty() && self.r.chance(3, 4) {
            return Some(self.r.pick(&found));
        }
        let names: Vec<u8> = self.program.names(key).collect();
        if names.is_empty() {
            return None;
        }
        let number = self.r.pick(&[0, 0, 0, 1, 2, 77]);
        Some((self.r.pick(&names), number))
    }

    /// A frame of the scope: often the latest, else any.
    pub fn some_frame(&mut self, scope: u8) -> Option<usize> {
        let frames = &self.by_scope[scope as usize];
        if frames.is_empty() {
            None
        } else if self.r.chance(1, 2) {
            frames.last().copied()
        } else {
            Some(self.r.pick(frames))
        }
    }

    /// Any frame: often one of the latest.
    pub fn recent_frame(&mut self) -> usize {
        let all = self.frames.len();
        match self.r.below(4) {
            0 => 0,
            1 => self.r.below(all),
            _ => all - 1 - self.r.below(all.min(8)),
        }
    }
}
