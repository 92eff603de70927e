//! Mazes: one label after the other finds a way of its own through the loads of the file.
//!
//! A way passes all variables in an order of its own, by loads under its name, which let through only the labels that hold
//! themselves under that name. Label by label the ways are gone in turn, so that little of what an engine learned on one
//! label's way serves it on the next. From the last variable a label starts the next one.
//!
//! Lures are loads that grow nothing. Whenever a label comes to a variable, that one is stored twice: under a name that the
//! lures read, in a label that they do not see, and under a name that they do not read, in a label that they see. So the
//! lures' key, their chain and a label that they lack have all grown, but never in one row. Prims are lured in the same way,
//! by stores under names 1 and 2.
//!
//! With doors a way leads by loads to variables beside those that it passes, and from such a door leads on a call that hands it over
//! (relays), a call of a function of its own that returns it (returns), or a throw and a catch in a scope of its own (throws).

use second::generate::writer::Writer;
use second::keys::{KEY_OF_CLASS, KEY_OUTSIDE_CLASS};
use second::prng::Prng;
use second::Edition;
use std::ops::Range;

/// How the loads of the ways stand in the file.
#[derive(Clone, Copy, PartialEq, Eq, Debug)]
pub enum Order {
    /// Each way in the order in which it is gone.
    Forwards,
    /// Each way from its end to its start.
    Backwards,
    /// All loads in any order.
    Shuffled,
}

pub const ORDERS: [Order; 3] = [Order::Forwards, Order::Backwards, Order::Shuffled];

/// What the rest of the file is full of; it stands before the ways.
#[derive(Clone, Copy, PartialEq, Eq, Debug)]
pub enum Rest {
    /// Nothing: the file is shorter.
    Nothing,
    /// Calls with seven variables of the ways, of functions that know all labels.
    Sightseers,
    Lures,
    /// Prims in place of the lures.
    Prims,
    /// Nothing, but every step of a way takes a load and a call.
    Relays,
    /// The same with a load and a call of a function that returns.
    Returns,
    /// The same with a load, a throw and a catch.
    Throws,
}

#[derive(Clone, Copy, PartialEq, Eq, Debug)]
pub struct Maze {
    /// The most bytes of the file, which the ways must fit in.
    pub size: usize,
    pub variables: usize,
    pub ways: usize,
    pub order: Order,
    pub rest: Rest,
}

/// A plain built-in label, the fresh object of every load: stores do not land on it.
const FRESH: u8 = 5;
/// Plain labels that find their ways, from here to the last of the edition.
const FIRST: u8 = 6;
/// With sightseers the first of them are functions instead; with doors as many as are needed for all of these.
const FUNCTIONS: u8 = 8;
/// What a call hands over at most: this and six arguments.
const INPUTS: usize = 7;
/// The name under which a label holds the one that starts after it. The ways have the names from 0 up, beside prims those behind
/// the names that these look under.
const NEXT: u8 = 31;
const CONVERTED: [u8; 2] = [1, 2];

/// Takes what the lures load, and what the sightseers hand over; then it holds every label that goes a way.
const SINK: u8 = 2;
/// Holds the functions.
const CALLED: u8 = 3;
/// Two variables with the labels that the lures see: a few for the first lure under each key, the rest for all others, so that
/// what is remembered of the first ones serves no other.
const SEEN: [u8; 2] = [3, 4];
const FEW: usize = 5;
/// The keys of the lures: classes 1 to 7, all of the same names.
const KEYS: std::ops::RangeInclusive<u8> = KEY_OF_CLASS + 1..=KEY_OUTSIDE_CLASS - 1;
const FIRST_FREE: usize = 5;

impl Maze {
    pub fn file(self, edition: Edition, seed: u64) -> Vec<u8> {
        let mut r = Prng::new(seed.wrapping_mul(41).wrapping_add(3));
        let mut runners: Vec<u8> = (FIRST + self.functions()..=*edition.declarable().end()).collect();
        r.shuffle(&mut runners);
        let passed: Vec<u8> = (FIRST_FREE..FIRST_FREE + self.variables).map(|v| v as u8).collect();
        let lured = matches!(self.rest, Rest::Lures | Rest::Prims);
        let stored = if lured { self.stored(&runners, &passed) } else { Writer::new() };

        let mut file = self.declared(&runners, &passed);
        file.put(&stored.bytes);
        let ways = self.loads(&mut r, &passed).concat();
        let room = self.size.checked_sub(file.bytes.len() + ways.len()).expect("the ways fit");
        match self.rest {
            Rest::Nothing | Rest::Relays | Rest::Returns | Rest::Throws => {}
            Rest::Sightseers => (0..room / 11).for_each(|_| {
                let mut some = || r.pick(&passed);
                let (this, six) = (some(), [some(), some(), some(), some(), some(), some()]);
                file.call(0, 0, CALLED, this, six);
            }),
            Rest::Lures => KEYS.cycle().enumerate().take(room / 6).for_each(|(i, key)| {
                file.load(0, SINK, SEEN[(i >= KEYS.count()) as usize], key, FRESH);
            }),
            Rest::Prims => (0..room / 3).for_each(|_| {
                file.prim(0, SEEN[1]);
            }),
        }
        file.put(&ways);
        file.bytes
    }

    /// How many labels are functions.
    fn functions(self) -> u8 {
        match self.rest {
            Rest::Sightseers => FUNCTIONS,
            Rest::Relays => self.variables.div_ceil(INPUTS) as u8,
            Rest::Returns | Rest::Throws => self.variables as u8,
            _ => 0,
        }
    }

    /// The names of the ways.
    fn ways(self) -> Range<u8> {
        let first = if self.rest == Rest::Prims { CONVERTED[1] + 1 } else { 0 };
        first..first + self.ways as u8
    }

    /// The names that the lures or prims read, and those that they do not.
    fn names(self) -> [Vec<u8>; 2] {
        let first = self.ways().end;
        let middle = (first + NEXT) / 2;
        match self.rest {
            Rest::Prims => [CONVERTED.to_vec(), (first..NEXT).collect()],
            _ => [(first..middle).collect(), (middle..NEXT).collect()],
        }
    }

    /// All labels, names and variables, what each label holds, and which one starts.
    fn declared(self, runners: &[u8], passed: &[u8]) -> Writer {
        let mut file = Writer::new();
        file.label(FRESH, 1, 1);
        for &l in runners {
            file.label(l, 1, 0);
        }
        let functions: Vec<u8> = (FIRST..FIRST + self.functions()).collect();
        for &f in &functions {
            file.label(f, 2, 0);
        }
        for &n in &self.names()[0] {
            file.name(n, 255);
        }
        for v in 2..=255 {
            file.variable(v, 0, 255);
        }
        for pair in runners.windows(2) {
            file.property(pair[0], NEXT, pair[1]);
        }
        for (i, &l) in runners.iter().enumerate() {
            file.property(l, self.ways().start + (i % self.ways) as u8, l);
        }
        file.held(passed[0], runners[0]);
        if self.rest == Rest::Relays {
            for ((f, holder), group) in functions.into_iter().zip(self.holders()).zip(passed.chunks(INPUTS)) {
                let [this, formals @ ..] = inputs(group);
                file.function(f, this, formals).held(holder, f);
            }
            return file;
        }
        if self.has_doors() {
            for &f in &functions {
                file.function(f, 0, [0; 6]);
            }
            if self.rest == Rest::Returns {
                assert!(self.holders().count() >= functions.len(), "a variable is left for each function");
                for (f, holder) in functions.into_iter().zip(self.holders()) {
                    file.held(holder, f);
                }
            }
            return file;
        }
        for f in functions {
            file.function(f, SINK, [SINK; 6]).held(CALLED, f);
        }
        if self.rest == Rest::Sightseers {
            for &l in runners {
                file.held(SINK, l);
            }
        }
        file
    }

    fn has_doors(self) -> bool {
        matches!(self.rest, Rest::Relays | Rest::Returns | Rest::Throws)
    }

    /// The door before a variable.
    fn door(self, v: u8) -> u8 {
        v + self.variables as u8
    }

    /// The variables that hold the functions called from doors.
    fn holders(self) -> impl Iterator<Item = u8> {
        (FIRST_FREE + 2 * self.variables..=255).map(|v| v as u8)
    }

    /// What leads on from the doors.
    fn onward(self, passed: &[u8]) -> Vec<Vec<u8>> {
        let own = passed.iter().zip(FIRST..);
        match self.rest {
            Rest::Relays => self.calls(passed),
            Rest::Returns => own
                .zip(self.holders())
                .map(|((&v, f), holder)| {
                    Writer::new().give_back(f, self.door(v)).call(0, v, holder, 0, [0; 6]).bytes.clone()
                })
                .collect(),
            Rest::Throws => own.map(|(&v, f)| Writer::new().throw(f, self.door(v)).catch(f, v).bytes.clone()).collect(),
            _ => Vec::new(),
        }
    }

    /// The calls that do, for up to seven doors each.
    fn calls(self, passed: &[u8]) -> Vec<Vec<u8>> {
        let call = |(holder, group): (u8, &[u8])| {
            let doors: Vec<u8> = group.iter().map(|&v| self.door(v)).collect();
            let [this, arguments @ ..] = inputs(&doors);
            Writer::new().call(0, 0, holder, this, arguments).bytes.clone()
        };
        self.holders().zip(passed.chunks(INPUTS)).map(call).collect()
    }

    /// The stores of each passed variable: in a label that the lures do not see, under a name that they read, and in one that
    /// they see, under another name. All further labels are seen too, `FEW` of them by the first lures alone.
    fn stored(self, runners: &[u8], passed: &[u8]) -> Writer {
        let mut file = Writer::new();
        let [read, not_read] = self.names();
        let (unseen, seen) = runners.split_at(passed.len().div_ceil(read.len()));
        let (few, many) = seen.split_at(FEW);
        let boxes = passed.chunks(read.len()).zip(unseen).map(|(group, &l)| (group, l, &read));
        let others = passed.chunks(not_read.len()).zip(many).map(|(group, &l)| (group, l, &not_read));
        for (i, (group, l, names)) in boxes.chain(others).enumerate() {
            let holder = u8::try_from(FIRST_FREE + passed.len() + i).expect("a variable is left");
            file.held(holder, l);
            for (&v, &n) in group.iter().zip(names) {
                file.store(0, holder, n, v);
            }
        }
        for (v, labels) in SEEN.into_iter().zip([few, many]) {
            for &l in labels {
                file.held(v, l);
            }
        }
        file
    }

    /// The loads of the ways, and the one that starts the next label.
    fn loads(self, r: &mut Prng, passed: &[u8]) -> Vec<Vec<u8>> {
        let (first, last) = (passed[0], passed[passed.len() - 1]);
        let load = |y, object, key| Writer::new().load(0, y, object, key, FRESH).bytes.clone();
        let mut all = vec![load(first, last, NEXT)];
        all.extend(self.onward(passed));
        for n in self.ways() {
            let mut way = passed.to_vec();
            r.shuffle(&mut way[1..passed.len() - 1]);
            let to = |v| if self.has_doors() { self.door(v) } else { v };
            let mut loads: Vec<Vec<u8>> = way.windows(2).map(|pair| load(to(pair[1]), pair[0], n)).collect();
            if self.order == Order::Backwards {
                loads.reverse();
            }
            all.extend(loads);
        }
        if self.order == Order::Shuffled {
            r.shuffle(&mut all);
        }
        all
    }
}

/// Up to seven variables as the inputs of a function or call; the others are none.
fn inputs(variables: &[u8]) -> [u8; INPUTS] {
    std::array::from_fn(|i| variables.get(i).copied().unwrap_or(0))
}
