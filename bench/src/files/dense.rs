//! Dense files: every label and variable in use and every variable granted, so that nearly every fact holds.

use super::LONGEST;
use second::generate::writer::Writer;
use second::keys::{EVERY_NAME, KEYS_END, KEY_OF_CLASS, KEY_OUTSIDE_CLASS};
use second::prng::Prng;
use second::Edition;

/// The first label and the last of each type.
struct Labels {
    plain: (usize, usize),
    functions: (usize, usize),
}

impl Labels {
    /// All that the edition has, 19 of 64 functions.
    fn of(edition: Edition) -> Labels {
        let first_function = edition.labels() - 19 * edition.words();
        Labels { plain: (5, first_function - 1), functions: (first_function, edition.labels() - 1) }
    }
}

/// Kinds of statement a dense file can be full of; 0 stands for all of them.
pub const KINDS: [u8; 6] = [0, 17, 18, 21, 22, 26];

/// The first and the last key of classes 1 to 7, and of these and all outside keys.
const CLASS_KEYS: (usize, usize) = (KEY_OF_CLASS as usize + 1, KEY_OUTSIDE_CLASS as usize - 1);
const KEYS: (usize, usize) = (CLASS_KEYS.0, KEYS_END as usize - 1);

/// A full file, nine of ten statements of the kind, with keys of every sort but single names.
pub fn dense(edition: Edition, kind: u8, seed: u64) -> Vec<u8> {
    dense_under(edition, kind, seed, |r| if r.chance(1, 2) { EVERY_NAME } else { between(r, KEYS) })
}

/// The same with keys of classes 1 to 7 alone.
pub fn dense_under_class_keys(edition: Edition, kind: u8, seed: u64) -> Vec<u8> {
    dense_under(edition, kind, seed, |r| between(r, CLASS_KEYS))
}

fn dense_under(edition: Edition, kind: u8, seed: u64, some_key: fn(&mut Prng) -> u8) -> Vec<u8> {
    let labels = Labels::of(edition);
    let (plain, functions) = (labels.plain, labels.functions);
    let mut r = Prng::new(seed.wrapping_mul(31).wrapping_add(kind as u64));
    let mut w = Writer::new();
    for l in plain.0..=functions.1 {
        w.label(l as u8, if l < functions.0 { 1 } else { 2 }, 0);
    }
    for n in 0..32 {
        w.name(n, r.byte() | 1);
    }
    for v in 2..=255 {
        w.variable(v, 0, 255);
    }
    for f in functions.0..=functions.1 {
        w.function(f as u8, variable(&mut r), [(); 6].map(|_| variable(&mut r)));
    }
    for l in plain.0..=functions.1 {
        w.held(variable(&mut r), l as u8).throw(between(&mut r, functions), variable(&mut r));
        w.new_object(0, 0, variable(&mut r), 2, plain.0.max(l.min(plain.1)) as u8, [0; 6]);
    }
    for (v, l) in (2..=255).zip([0, 1, 2, 4].into_iter().cycle()) {
        w.held(v, l).grant(v);
    }
    while w.bytes.len() + 18 <= LONGEST {
        let kind = if kind == 0 || r.chance(1, 10) { r.between(16, 26) as u8 } else { kind };
        statement(&mut r, &mut w, &labels, kind, some_key);
    }
    w.fill(LONGEST);
    w.bytes
}

fn between(r: &mut Prng, bounds: (usize, usize)) -> u8 {
    r.between(bounds.0, bounds.1) as u8
}

fn variable(r: &mut Prng) -> u8 {
    between(r, (2, 255))
}

fn statement(r: &mut Prng, w: &mut Writer, labels: &Labels, kind: u8, some_key: fn(&mut Prng) -> u8) {
    let k = if r.chance(1, 3) { 0 } else { between(r, labels.functions) };
    let key = some_key(r);
    let (a, b, c) = (variable(r), variable(r), variable(r));
    let (plain, function) = (between(r, labels.plain), between(r, labels.functions));
    let six = [(); 6].map(|_| variable(r));
    match kind {
        16 => w.copy(k, a, b),
        17 => w.load(k, a, b, key, plain),
        18 => w.store(k, a, key, b),
        19 => w.make(k, a, plain),
        20 => w.make_function(k, a, function, plain),
        21 => w.call(k, a, b, c, six),
        22 => w.new_object(k, a, b, c, plain, six),
        23 => w.give_back(function, a),
        24 => w.throw(k, a),
        25 => w.catch(k, a),
        _ => w.prim(k, a),
    };
}
