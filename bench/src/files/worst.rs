//! The shapes of courses: through which rows the runners pass.

use super::course::{Course, FIRST, FRESH, PASSED, SELF, SINK};
use super::filler::Filler;
use second::Edition;

#[derive(Clone, Copy, PartialEq, Eq, Debug)]
pub enum Shape {
    /// S to S by copies.
    Copies,
    /// S to H by a store, H to S by a load.
    Properties,
    /// S to H by a store, H to P by a new, P to P by prototypes of prototypes, P to S by a load.
    Prototypes,
    /// S to T by a throw, T to T by calls, T to S by a catch.
    Throws,
    /// S to S by arguments, six for each call.
    Calls,
    /// S to S by what a function returns.
    Returns,
    /// S to ninety rows of H at once by a store under a class of names, and back to S by a load.
    Classes,
    /// As `Properties`, but the load looks from variable 0 along the chain of its w.
    Chains,
    /// As many rows as there are: S to H or T, and back to S.
    Longest,
}

pub const SHAPES: [Shape; 9] = [
    Shape::Copies,
    Shape::Properties,
    Shape::Prototypes,
    Shape::Throws,
    Shape::Calls,
    Shape::Returns,
    Shape::Classes,
    Shape::Chains,
    Shape::Longest,
];

/// A full file with a course of the shape; whatever variables the shape has no use for are passed by copies.
pub fn worst(edition: Edition, shape: Shape, filler: Filler, watching: bool, seed: u64) -> Vec<u8> {
    let mut course = Course::new(edition, seed);
    match shape {
        Shape::Copies => {}
        Shape::Properties => properties(&mut course, 0, false),
        Shape::Prototypes => prototypes(&mut course),
        Shape::Throws => throws(&mut course),
        Shape::Calls => calls(&mut course),
        Shape::Returns => returns(&mut course),
        Shape::Classes => classes(&mut course),
        Shape::Chains => properties(&mut course, 0, true),
        Shape::Longest => properties(&mut course, 56, false),
    }
    while course.left() > 0 {
        let (from, to) = course.step();
        course.link(|w| w.copy(0, to, from));
    }
    course.finish(filler, watching)
}

/// Through properties of few labels, thirty of each; `thrown` of the steps by throw and catch in a scope of their own. They are looked up in the
/// functions that these labels are, or in variable 0 with a label, then plain, as w.
fn properties(course: &mut Course, thrown: usize, by_chain: bool) {
    let mut steps = vec![None; thrown];
    for (i, step) in steps.iter_mut().enumerate() {
        *step = Some(FIRST + i as u8);
    }
    let boxes = (course.left() - thrown).div_ceil(31);
    course.closed = (0..boxes as u8).map(|i| course.last - i).collect();
    let holders: Vec<u8> = course.closed.clone().into_iter().map(|l| course.holder(l)).collect();
    if by_chain {
        course.plain = course.closed.clone();
    }
    steps.resize(course.left(), None);
    course.r.shuffle(&mut steps);
    let mut used = 0;
    for scope in steps {
        let (from, to) = course.step();
        if let Some(k) = scope {
            course.link(|w| w.throw(k, from));
            course.link(|w| w.catch(k, to));
        } else {
            let (object, name) = (holders[used / 30], (used % 30) as u8);
            let (from_object, fresh) = if by_chain { (0, course.closed[used / 30]) } else { (object, FRESH) };
            course.link(|w| w.store(0, object, name, from));
            course.link(|w| w.load(0, to, from_object, name, fresh));
            used += 1;
        }
    }
}

/// The last labels, downwards, are made by the first functions, each with the one before as prototype, the first with the runner.
fn prototypes(course: &mut Course) {
    const LENGTH: u8 = 12;
    course.plain = (course.last - (LENGTH - 1)..=course.last).collect();
    course.closed = (FIRST..FIRST + LENGTH).collect();
    let (from, to) = course.step();
    for i in 0..LENGTH {
        let (maker, made) = (FIRST + i, course.last - i);
        let holder = course.holder(maker);
        if i == 0 {
            course.link(|w| w.store(0, holder, 3, from));
        } else {
            course.at_start(|w| w.property(maker, 3, made + 1));
        }
        course.link(|w| w.new_object(0, 0, holder, SINK, made, [0; 6]));
    }
    let last = course.holder(course.last - (LENGTH - 1));
    course.link(|w| w.load(0, to, last, SELF, FRESH));
}

/// Each of 56 functions calls the one before; what the first throws reaches the last.
fn throws(course: &mut Course) {
    const LAST: u8 = FIRST + 55;
    let (from, to) = course.step();
    course.link(|w| w.throw(FIRST, from));
    for f in FIRST + 1..=LAST {
        let before = course.holder(f - 1);
        course.link(|w| w.call(f, 0, before, 0, [0; 6]));
    }
    course.link(|w| w.catch(LAST, to));
}

/// Six steps for each call: the last argument is the first to move on, so that a visit moves a runner one step.
fn calls(course: &mut Course) {
    for f in FIRST..FIRST + 34 {
        let holder = course.holder(f);
        let (mut args, mut formals) = ([0; 6], [0; 6]);
        for i in (0..6).rev() {
            (args[i], formals[i]) = course.step();
        }
        course.called.push((f, formals));
        course.link(|w| w.call(0, 0, holder, 0, args));
    }
}

/// Each function returns the variable reached last, and its call puts that in the next.
fn returns(course: &mut Course) {
    for f in FIRST..FIRST + 50 {
        let holder = course.holder(f);
        let (from, to) = course.step();
        course.called.push((f, [SINK; 6]));
        course.at_start(|w| w.give_back(f, from));
        course.link(|w| w.call(0, to, holder, 0, [0; 6]));
    }
}

/// Through all passed properties of three functions at once.
fn classes(course: &mut Course) {
    course.closed = (FIRST..=course.last - 2).collect();
    for three in course.closed.clone().chunks(3) {
        let holder = course.variable();
        three.iter().for_each(|&f| course.at_start(|w| w.held(holder, f)));
        let (from, to) = course.step();
        course.link(|w| w.store(0, holder, PASSED, from));
        course.link(|w| w.load(0, to, holder, 0, FRESH));
    }
}
