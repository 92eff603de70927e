//! Generator (g): full files in which labels run one after the other through a long chain of rows, laid against the order of the file, so
//! that facts need as many rounds as labels times rows.

use super::relabel::{any_order, relabel};
use super::writer::Writer;
use super::{title, Named};
use crate::edition::Edition;
use crate::keys::{EVERY_NAME, KEY_OUTSIDE_CLASS};
use crate::prng::Prng;
use std::ops::RangeInclusive;

/// The wrapper of every load: built-in, so that no store lands on it.
const WRAPPER: u8 = 5;
const FIRST_RUNNER: u8 = 6;
/// Takes what the filling loads find, and is read by none.
const SINK: u8 = 2;
/// Holds the label under whose names runners pass.
const HOLDER: u8 = 3;
/// As many functions that runners are thrown in, and as many that they are passed to, each of these held by a variable from here.
const FUNCTIONS: u8 = 10;
const FIRST_CALLEE: u8 = 4;
/// The variables of the course.
const COURSE: RangeInclusive<u8> = FIRST_CALLEE + FUNCTIONS..=255;
/// The name under which a runner holds the next.
const NEXT: u8 = 31;
/// No name has a record, so that each of these keys has every name.
const FILLING_KEYS: [u8; 2] = [EVERY_NAME, KEY_OUTSIDE_CLASS + 1];

/// How a runner gets from one variable to the next.
#[derive(Clone, Copy)]
enum Step {
    Copy,
    /// Under a name of the holder's label.
    Property(u8),
    /// Through a function in which it is thrown and caught.
    Throw(u8),
    /// As the argument of a function, held by a variable.
    Call(u8, u8),
}

/// Makes a full file: the first runner stands at the start of the course, and each next one is loaded from the one that reached its end. Behind the
/// course stand loads that every runner wakes, or records that say nothing.
pub fn relay_in(edition: Edition, seed: u64) -> Named {
    let mut r = Prng::new(seed.wrapping_mul(31).wrapping_add(0x11));
    let mut w = Writer::new();
    let last = *edition.declarable().end();
    let first_function = last - 2 * FUNCTIONS;
    w.label(WRAPPER, 1, 1)
        .label(last, 1, 0)
        .forbid(last)
        .variable(SINK, 0, 255)
        .variable(HOLDER, 0, 255)
        .held(HOLDER, last);
    for l in FIRST_RUNNER..first_function {
        w.label(l, 1, r.chance(1, 2) as u8);
    }
    for v in FIRST_CALLEE..=255 {
        w.variable(v, 0, 255);
    }
    for l in FIRST_RUNNER + 1..first_function {
        w.property(l - 1, NEXT, l);
    }
    w.held(*COURSE.start(), FIRST_RUNNER).forbid(first_function - 1);

    let mut steps: Vec<Step> = (0..NEXT).map(Step::Property).collect();
    for i in 0..FUNCTIONS {
        let f = first_function + 2 * i;
        steps.extend([Step::Throw(f), Step::Call(f + 1, FIRST_CALLEE + i)]);
    }
    steps.resize(COURSE.len() - 1, Step::Copy);
    r.shuffle(&mut steps);
    for (&step, to) in steps.iter().zip(COURSE.skip(1)) {
        declare(&mut w, step, to);
    }
    w.load(0, *COURSE.start(), *COURSE.end(), NEXT, WRAPPER);
    for (&step, to) in steps.iter().zip(COURSE.skip(1)).rev() {
        link(&mut w, step, to - 1, to);
    }
    if r.chance(1, 2) {
        w.grant(SINK);
    }
    for _ in 0..r.pick(&[0, 100]) {
        w.load(0, SINK, r.between(2, 255) as u8, r.pick(&FILLING_KEYS), WRAPPER);
    }
    w.fill(32_768);
    let file = if edition == Edition::Large { relabel(&w.bytes, &any_order(&mut r)) } else { w.bytes };
    (title(edition, "relay", seed), file)
}

/// The function of a step, which leads to the variable if it is called.
fn declare(w: &mut Writer, step: Step, to: u8) {
    match step {
        Step::Copy | Step::Property(_) => w,
        Step::Throw(f) => w.label(f, 2, 0).function(f, 0, [0; 6]),
        Step::Call(f, callee) => w.label(f, 2, 0).function(f, 0, [to, 0, 0, 0, 0, 0]).held(callee, f),
    };
}

fn link(w: &mut Writer, step: Step, from: u8, to: u8) {
    match step {
        Step::Copy => w.copy(0, to, from),
        Step::Property(n) => w.load(0, to, HOLDER, n, WRAPPER).store(0, HOLDER, n, from),
        Step::Throw(f) => w.catch(f, to).throw(f, from),
        Step::Call(_, callee) => w.call(0, 0, callee, 0, [from, 0, 0, 0, 0, 0]),
    };
}
