//! Generator (e): files of exactly 32,768 bytes that use every label and variable, for the greatest work.

use super::writer::Writer;
use super::{title, Named};
use crate::edition::Edition;
use crate::keys::{CLASSES, CLASS_ZERO, EVERY_NAME, KEY_OF_CLASS, KEY_OUTSIDE_CLASS, NAMES};
use crate::prng::Prng;
use crate::program::LONGEST_FILE;
use std::ops::Range;

/// Plain labels, functions and arrays, each a run of labels of the edition.
struct Labels {
    first_function: u8,
    first_array: u8,
    last: u8,
}

impl Labels {
    fn of(edition: Edition) -> Labels {
        match edition {
            Edition::Small => Labels { first_function: 30, first_array: 55, last: 63 },
            Edition::Large => Labels { first_function: 105, first_array: 205, last: 255 },
        }
    }

    fn kind(&self, l: u8) -> u8 {
        if l < self.first_function {
            1
        } else if l < self.first_array {
            2
        } else {
            3
        }
    }

    fn some_plain(&self, r: &mut Prng) -> u8 {
        r.between(5, self.first_function as usize - 1) as u8
    }

    fn some_function(&self, r: &mut Prng) -> u8 {
        r.between(self.first_function as usize, self.first_array as usize - 1) as u8
    }

    /// An array label for each plain one.
    fn array(&self, plain: u8) -> u8 {
        self.first_array + plain % (self.last - self.first_array + 1)
    }
}

/// The keys of loads and stores.
#[derive(Clone, Copy, Debug)]
enum Keys {
    /// Every name.
    Every,
    /// Every name, or all outside a class.
    Most,
    /// A name, all of a class but class 0, or all outside a class.
    Any,
}

/// Makes a full file of one kind of statement (or all kinds) over all labels and all 254 variables, few or all of them granted; in a third of
/// the files the guest is held to a class.
pub fn dense_in(edition: Edition, seed: u64) -> Named {
    let mut r = Prng::new(seed.wrapping_mul(23).wrapping_add(0xF));
    let mut w = Writer::new();
    let all = Labels::of(edition);
    for l in edition.declarable() {
        w.label(l, all.kind(l), 0);
    }
    // Half of the name records stand before the keys, half after them.
    w.put(&names(&mut r, 0..NAMES / 2));
    let mut late_names = names(&mut r, NAMES / 2..NAMES);
    if r.chance(1, 3) {
        let profile = [9, r.below(CLASSES as usize) as u8];
        if r.chance(1, 2) {
            w.put(&profile);
        } else {
            late_names.extend(profile);
        }
    }
    // The last variables belong to functions.
    for v in 2..=255 {
        w.variable(v, if v < 200 { 0 } else { all.some_function(&mut r) }, 255);
    }
    for f in all.first_function..all.first_array {
        w.function(
            f,
            some(&mut r),
            [some(&mut r), some(&mut r), some(&mut r), some(&mut r), some(&mut r), some(&mut r)],
        );
    }
    for l in edition.declarable() {
        w.held(r.between(2, 199) as u8, l);
    }
    w.held(2, 0);
    for _ in 0..r.pick(&[0, 1, 1, 200]) {
        w.grant(r.between(2, 199) as u8);
    }
    w.forbid(r.between(5, all.last as usize) as u8);
    let only = r.pick(&[16, 17, 18, 21, 22, 26, 0, 0]);
    let keys = r.pick(&[Keys::Every, Keys::Most, Keys::Any]);
    while w.bytes.len() + late_names.len() + 18 <= LONGEST_FILE {
        let kind = if only != 0 && r.chance(9, 10) { only } else { r.between(16, 26) as u8 };
        statement(&all, &mut r, &mut w, kind, keys);
    }
    w.put(&late_names).fill(LONGEST_FILE);
    (format!("{}-{only}-{keys:?}", title(edition, "dense", seed)), w.bytes)
}

/// A record with any mask for each of the names.
fn names(r: &mut Prng, names: Range<u8>) -> Vec<u8> {
    let mut w = Writer::new();
    for n in names {
        w.name(n, CLASS_ZERO | r.byte());
    }
    w.bytes
}

/// Any declared variable.
fn some(r: &mut Prng) -> u8 {
    r.between(2, 255) as u8
}

fn some_key(r: &mut Prng, keys: Keys) -> u8 {
    match keys {
        Keys::Every => EVERY_NAME,
        Keys::Most => r.pick(&[EVERY_NAME, KEY_OUTSIDE_CLASS + 1]),
        Keys::Any => match r.below(3) {
            0 => r.below(NAMES as usize) as u8,
            1 => KEY_OF_CLASS + r.between(1, CLASSES as usize - 1) as u8,
            _ => KEY_OUTSIDE_CLASS + r.below(CLASSES as usize) as u8,
        },
    }
}

fn statement(all: &Labels, r: &mut Prng, w: &mut Writer, kind: u8, keys: Keys) {
    let k = if r.chance(1, 3) { 0 } else { all.some_function(r) };
    let key = some_key(r, keys);
    let (a, b, c) = (some(r), some(r), some(r));
    let plain = all.some_plain(r);
    let function = all.some_function(r);
    let args = [some(r), some(r), some(r), some(r), some(r), some(r)];
    match kind {
        16 => w.copy(k, a, b),
        17 => w.load(k, a, b, key, plain),
        18 => w.store(k, a, key, b),
        19 => w.make(k, a, r.pick(&[plain, all.array(plain)])),
        20 => w.make_function(k, a, function, plain),
        21 => w.call(k, a, b, c, args),
        22 => w.new_object(k, a, b, c, plain, args),
        23 => w.give_back(k, a),
        24 => w.throw(k, a),
        25 => w.catch(k, a),
        _ => w.prim(k, a),
    };
}
