//! A course: rows of the table laid one behind the other, which labels run through one after the other.
//!
//! A link is a record, or two, by which what is in one row enters the next. The links stand in the file against
//! the direction of the run, so a pass in the order of the file moves a runner one row on. The last row is the object
//! of a load by the name `NEXT`, under which each runner holds the one that is to start after it.

use super::filler::{self, Filler};
use super::LONGEST;
use second::generate::writer::Writer;
use second::keys::KEY_OF_CLASS;
use second::prng::Prng;
use second::Edition;
use std::ops::RangeInclusive;

/// Takes what the filler writes, and is read by no link.
pub const SINK: u8 = 2;
/// Holds `DEEP`, whose chain has every label on it: a load from here reads all properties.
pub const DENSE: u8 = 3;
/// Holds the functions that no link calls.
pub const FUNCTIONS: u8 = 4;
/// Holds the labels whose properties no link passes through.
pub const OPEN: u8 = 5;
const FIRST_FREE: u16 = 6;

/// A plain built-in label, the fresh object of every load: stores do not land on it.
pub const FRESH: u8 = 5;
/// A plain label with every label on its chain.
pub const DEEP: u8 = 6;
/// The function whose property 3 holds every label; `DEEP` is made by it.
const MAKER: u8 = 7;
/// Functions, or plain labels where a shape asks for them, from here on.
pub const FIRST: u8 = 8;

/// The name under which a runner holds itself.
pub const SELF: u8 = 30;
/// The name under which a runner holds the next.
pub const NEXT: u8 = 31;
/// The key for the names below `SELF`.
pub const PASSED: u8 = KEY_OF_CLASS + 1;

pub struct Course {
    pub r: Prng,
    /// The last label that the edition has.
    pub last: u8,
    links: Vec<Vec<u8>>,
    start: Vec<Vec<u8>>,
    next_variable: u16,
    /// The variables that the runners pass, in the order of the run.
    pub passed: Vec<u8>,
    /// Labels that are plain and do not run.
    pub plain: Vec<u8>,
    /// Labels whose properties the filler must leave alone.
    pub closed: Vec<u8>,
    /// Functions that links call, with their formals.
    pub called: Vec<(u8, [u8; 6])>,
}

impl Course {
    pub fn new(edition: Edition, seed: u64) -> Course {
        let mut course = Course {
            r: Prng::new(seed.wrapping_mul(29).wrapping_add(7)),
            last: *edition.declarable().end(),
            links: Vec::new(),
            start: Vec::new(),
            next_variable: FIRST_FREE,
            passed: Vec::new(),
            plain: Vec::new(),
            closed: Vec::new(),
            called: Vec::new(),
        };
        let first = course.variable();
        course.passed.push(first);
        course
    }

    /// The labels from `FIRST` on.
    pub fn labels(&self) -> RangeInclusive<u8> {
        FIRST..=self.last
    }

    /// A variable not used before.
    pub fn variable(&mut self) -> u8 {
        let v = u8::try_from(self.next_variable).expect("a variable is left");
        self.next_variable += 1;
        v
    }

    /// The number of variables not used so far.
    pub fn left(&self) -> usize {
        256 - self.next_variable as usize
    }

    /// A variable that holds the label and nothing else.
    pub fn holder(&mut self, l: u8) -> u8 {
        let v = self.variable();
        self.at_start(|w| w.held(v, l));
        v
    }

    /// The variable that the runners reached last, and a new one that they are to reach next.
    pub fn step(&mut self) -> (u8, u8) {
        let from = *self.passed.last().expect("there is a first one");
        let to = self.variable();
        self.passed.push(to);
        (from, to)
    }

    pub fn link(&mut self, write: impl FnOnce(&mut Writer) -> &mut Writer) {
        self.links.push(written(write));
    }

    pub fn at_start(&mut self, write: impl FnOnce(&mut Writer) -> &mut Writer) {
        self.start.push(written(write));
    }

    /// Those that run: functions, then labels 0 and 4, and last 2, which is on every function's chain and so has no next.
    fn runners(&self) -> Vec<u8> {
        let functions = self.labels().filter(|l| !self.plain.contains(l));
        functions.chain([MAKER, 0, 4, 2]).collect()
    }

    /// The file: declarations, what is so from the start, then the links from the last to the first among the filler.
    pub fn finish(mut self, filler: Filler, watching: bool) -> Vec<u8> {
        let mut file = self.declarations();
        let runners = self.runners();
        let (first, last) = (self.passed[0], self.passed[self.passed.len() - 1]);
        file.held(first, runners[0]);
        for pair in runners.windows(2) {
            file.property(pair[0], NEXT, pair[1]);
        }
        for &l in runners.iter().filter(|&&l| l != 2) {
            file.property(l, SELF, l);
        }
        file.bytes.extend(self.start.concat());
        self.link(|w| w.load(0, first, last, NEXT, FRESH));
        self.links.reverse();
        let room = LONGEST - file.bytes.len() - self.links.concat().len();
        let fill = filler::records(&mut self, filler, watching, room);
        file.bytes.extend(self.spread(fill));
        file.bytes
    }

    fn declarations(&self) -> Writer {
        let mut file = Writer::new();
        file.label(FRESH, 1, 1).label(DEEP, 1, 0).label(MAKER, 2, 0);
        for l in self.labels() {
            file.label(l, if self.plain.contains(&l) { 1 } else { 2 }, 0);
        }
        for n in 0..SELF {
            file.name(n, 3);
        }
        for v in 2..=255 {
            file.variable(v, 0, 255);
        }
        file.function(MAKER, SINK, [SINK; 6]);
        for l in self.labels().filter(|l| !self.plain.contains(l)) {
            let called = self.called.iter().find(|called| called.0 == l);
            file.function(l, SINK, called.map_or([SINK; 6], |called| called.1));
            if called.is_none() {
                file.held(FUNCTIONS, l);
            }
        }
        for l in self.labels().filter(|l| !self.plain.contains(l) && !self.closed.contains(l)) {
            file.held(OPEN, l);
        }
        for l in (5..=self.last).filter(|&l| l != MAKER) {
            file.property(MAKER, 3, l);
        }
        file.held(SINK, MAKER).new_object(0, SINK, SINK, SINK, DEEP, [0; 6]).held(DENSE, DEEP);
        file
    }

    /// The links in their order, at even distances among the other records.
    fn spread(&self, fill: Vec<Vec<u8>>) -> Vec<u8> {
        let mut bytes = Vec::new();
        let mut links = self.links.iter();
        let every = (fill.len() / self.links.len()).max(1);
        for (i, record) in fill.iter().enumerate() {
            if i % every == 0 {
                links.next().into_iter().for_each(|link| bytes.extend(link));
            }
            bytes.extend(record);
        }
        links.for_each(|link| bytes.extend(link));
        bytes
    }
}

fn written(write: impl FnOnce(&mut Writer) -> &mut Writer) -> Vec<u8> {
    let mut w = Writer::new();
    write(&mut w);
    w.bytes
}
