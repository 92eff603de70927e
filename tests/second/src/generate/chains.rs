//! The chains of generator (c): each passes the forbidden object on, or what is needed to find it, from link to link.

use super::rounds::{Chain, Most};
use crate::keys::{CLASSES, CLASS_ZERO, EVERY_NAME, KEY_OF_CLASS, KEY_OUTSIDE_CLASS, NAMES};
use crate::prng::Prng;

pub type Maker = fn(&mut Prng, &Most) -> Chain;

/// The last two are long only where there are more than 64 labels.
pub const MAKERS: [(&str, Maker); 10] = [
    ("copies", copies),
    ("properties", properties),
    ("prototypes", prototypes),
    ("throws", throws),
    ("calls", calls),
    ("returns", returns),
    ("globals", globals),
    ("chains", chains),
    ("linked", linked),
    ("scopes", scopes),
];

/// 2 to 3 to 4 and so on by copies.
fn copies(r: &mut Prng, _: &Most) -> Chain {
    let mut chain = Chain::start();
    let last = r.between(10, 255) as u8;
    chain.top(3, last);
    for v in 3..=last {
        chain.link(|w| w.copy(0, v, v - 1));
    }
    chain.end(r, last);
    chain
}

/// Each object hangs in the one before; the last one holds the forbidden object.
fn properties(r: &mut Prng, most: &Most) -> Chain {
    let mut chain = Chain::start();
    let last = r.between(10, most.three as usize) as u8;
    let far = most.third;
    for l in 7..=last {
        chain.head.label(l, 1, 0);
        chain.head.variable(l, 0, 255).variable(l + far, 0, 255).variable(l + 2 * far, 0, 255);
    }
    for l in 7..=last {
        let before = if l == 7 { 2 } else { l - 1 };
        chain.link(|w| w.make(0, l, l));
        chain.link(|w| w.store(0, l, l % 32, before));
        chain.link(|w| w.load(0, l + far, l, l % 32, 6));
        chain.link(|w| w.copy(0, l + 2 * far, l + far));
        if l > 7 {
            chain.link(|w| w.store(0, l - 1, EVERY_NAME, l + 2 * far - 1));
        }
    }
    chain.end(r, last + 2 * far);
    chain
}

/// Objects made by new, each with the one before as prototype; the first holds the forbidden object.
fn prototypes(r: &mut Prng, most: &Most) -> Chain {
    let mut chain = Chain::start();
    let last = 2 * r.between(5, most.two as usize / 2 - 1) as u8 + 1;
    for l in (7..=last).step_by(2) {
        chain.head.label(l, 2, 0).function(l, 0, [0; 6]).label(l + 1, 1, 0);
        chain.head.variable(l, 0, 255).variable(l + 1, 0, 255).variable(l + most.second, 0, 255);
    }
    for l in (7..=last).step_by(2) {
        chain.link(|w| w.make_function(0, l, l, 6));
        if l > 7 {
            chain.link(|w| w.store(0, l, 3, l - 1));
        } else {
            chain.link(|w| w.store(0, 8, 9, 2));
        }
        chain.link(|w| w.new_object(0, l + 1, l, l + most.second, l + 1, [0; 6]));
    }
    chain.head.variable(3, 0, 255);
    chain.link(|w| w.load(0, 3, last + 1, 9, 6));
    chain.end(r, 3);
    chain
}

/// Functions 7 to last; the first throws, each next one calls the one before, the last is caught from.
fn throws(r: &mut Prng, most: &Most) -> Chain {
    let mut chain = Chain::start();
    let last = r.between(10, most.two as usize) as u8;
    chain.functions(7, last, |f| f + most.second);
    chain.top(7, last);
    chain.link(|w| w.throw(7, 2));
    for f in 7..=last {
        chain.link(|w| w.held(f, f));
        if f > 7 {
            chain.link(|w| w.call(f, 0, f - 1, 0, [0; 6]));
        }
    }
    chain.head.variable(3, 0, 255);
    chain.link(|w| w.catch(last, 3));
    let shown = if r.chance(1, 2) { 3 } else { last };
    chain.end(r, shown);
    chain
}

/// Each function passes its formal to the next; the last one's formal is copied out.
fn calls(r: &mut Prng, most: &Most) -> Chain {
    let mut chain = Chain::start();
    let last = r.between(10, most.two as usize) as u8;
    chain.functions(7, last, |f| f + most.second);
    chain.top(7, last);
    chain.head.variable(3, 0, 255);
    for f in 7..=last {
        let (k, arg) = if f == 7 { (0, 2) } else { (f - 1, f + most.second - 1) };
        chain.link(|w| w.held(f, f));
        chain.link(|w| w.call(k, 0, f, 0, [arg, 0, 0, 0, 0, 0]));
    }
    chain.link(|w| w.copy(last, 3, last + most.second));
    chain.end(r, 3);
    chain
}

/// Each function returns what the one before returned, and the functions are found only by way of one another.
fn returns(r: &mut Prng, most: &Most) -> Chain {
    let mut chain = Chain::start();
    let last = r.between(10, most.two as usize) as u8;
    chain.functions(7, last, |f| f + most.second);
    chain.top(7, last);
    chain.head.variable(3, 0, 255);
    chain.link(|w| w.held(7, 7));
    chain.link(|w| w.give_back(7, 2));
    for f in 8..=last {
        chain.link(|w| w.make_function(f - 1, f, f, 6));
        chain.link(|w| w.call(f, f + most.second, f - 1, 0, [0; 6]));
        chain.link(|w| w.give_back(f, f + most.second));
    }
    chain.link(|w| w.call(0, 3, last, 0, [0; 6]));
    chain.end(r, 3);
    chain
}

/// Named variables, loads from the global object and stores to it in turn.
fn globals(r: &mut Prng, _: &Most) -> Chain {
    let mut chain = Chain::start();
    let last = r.between(4, 27) as u8;
    chain.head.variable(3, 0, 255);
    chain.link(|w| w.held(3, 0));
    for n in 0..=last {
        chain.head.variable(10 + n, 0, n).variable(50 + n, 0, 255);
        let before = if n == 0 { 2 } else { 49 + n };
        chain.link(|w| w.store(0, 3, n, before));
        chain.link(|w| w.copy(0, 50 + n, 10 + n));
    }
    chain.end(r, 50 + last);
    chain
}

/// All variables and all names: loads of and outside a class feed stores with the same key, and prim calls pass the objects on. Name records
/// stand between them.
fn chains(r: &mut Prng, most: &Most) -> Chain {
    let mut chain = Chain::start();
    let last = r.between(20, most.two as usize) as u8;
    chain.functions(7, last, |f| f + most.second);
    chain.top(7, last);
    let class = |number: u8| 1 + number % (CLASSES - 1);
    chain.head.variable(3, 0, 255);
    for f in 7..=last {
        let key = class(f) + if f % 2 == 0 { KEY_OF_CLASS } else { KEY_OUTSIDE_CLASS };
        let n = f - 7;
        if n < NAMES {
            chain.link(|w| w.name(n, CLASS_ZERO | 1 << class(n)));
        }
        chain.link(|w| w.held(f, f));
        chain.link(|w| w.store(0, f, 1 + f % 2, if f == last { f } else { f + 1 }));
        chain.link(|w| w.store(0, f, key, if f == 7 { 2 } else { f + most.second - 1 }));
        chain.link(|w| w.load(f, f + most.second, f, key, 6));
        chain.link(|w| w.prim(if f == 7 { 0 } else { f - 1 }, f));
        chain.link(|w| w.throw(f, f + most.second));
        chain.link(|w| w.catch(f, 3));
    }
    chain.end(r, 3);
    chain
}

/// Every label but the forbidden one hangs in the one before, from the start; the last one has the forbidden object, the guest the first.
fn linked(r: &mut Prng, _: &Most) -> Chain {
    let mut chain = Chain::start();
    let last = r.between(60, 255) as u8;
    chain.head.variable(3, 0, 255);
    chain.link(|w| w.held(3, 7));
    for l in 7..=last {
        chain.head.label(l, 1, r.chance(1, 2) as u8);
        chain.link(|w| w.property(l, l % 32, if l == last { 5 } else { l + 1 }));
    }
    chain.end(r, 3);
    chain
}

/// As throws, through functions that have no variables of their own.
fn scopes(r: &mut Prng, _: &Most) -> Chain {
    let mut chain = Chain::start();
    let last = r.between(60, 255) as u8;
    chain.head.variable(3, 0, 255);
    chain.top(7, last);
    chain.link(|w| w.throw(7, 2));
    for f in 7..=last {
        chain.head.label(f, 2, 0).function(f, 0, [0; 6]);
        chain.link(|w| w.held(f, f));
        if f > 7 {
            chain.link(|w| w.call(f, 0, f - 1, 0, [0; 6]));
        }
    }
    chain.link(|w| w.catch(last, 3));
    let shown = if r.chance(1, 2) { 3 } else { last };
    chain.end(r, shown);
    chain
}
