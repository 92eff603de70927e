//! Ordinary files: what a translator writes for a large host of many functions, in the order of the source.
//!
//! One label in nine belongs to a part of the host that the rest never reads; its labels are forbidden.

use super::some_class_key;
use second::generate::writer::Writer;
use second::prng::Prng;
use second::Edition;

/// The labels and variables of one part of the host.
#[derive(Default)]
struct Part {
    plain: Vec<u8>,
    functions: Vec<u8>,
    top: Vec<u8>,
    /// Owner and number of each function's own variables.
    own: Vec<(u8, u8)>,
}

/// A readable file of `size` bytes or just below; labels and variables grow with it up to all that the edition has.
pub fn ordinary(edition: Edition, size: usize, seed: u64) -> Vec<u8> {
    let labels = (size / 500 * edition.words()).clamp(5, edition.labels() - 5);
    ordinary_over(labels, (size / 120).clamp(8, 254), size, seed)
}

/// The same over so many labels and variables, whatever the size.
pub fn ordinary_over(labels: usize, variables: usize, size: usize, seed: u64) -> Vec<u8> {
    let mut r = Prng::new(seed.wrapping_mul(37).wrapping_add(5));
    let mut w = Writer::new();
    let parts = declare(&mut r, &mut w, labels, variables);
    for &l in parts[1].plain.iter().chain(&parts[1].functions) {
        w.forbid(l);
    }
    for part in &parts {
        for (i, &l) in part.plain.iter().chain(&part.functions).enumerate() {
            w.held(part.top[i % part.top.len()], l);
        }
    }
    for _ in 0..1 + size / 2048 {
        w.grant(r.pick(&parts[0].top));
    }
    // Functions in turn, each with a run of statements.
    while w.bytes.len() + 12 <= size {
        // What is thrown at the top level is caught there by any part, so the forbidden part stays off it.
        let forbidden = r.chance(1, 9);
        let part = &parts[forbidden as usize];
        let k = if !forbidden && r.chance(1, 4) { 0 } else { r.pick(&part.functions) };
        let scope = Scope { k, part, own: part.own.iter().filter(|own| own.0 == k).map(|own| own.1).collect() };
        for _ in 0..r.between(4, 24) {
            if w.bytes.len() + 12 <= size {
                scope.statement(&mut r, &mut w);
            }
        }
    }
    w.bytes
}

/// Labels from 5, variables from 2 and function records, for both parts.
fn declare(r: &mut Prng, w: &mut Writer, labels: usize, variables: usize) -> [Part; 2] {
    let mut parts = [Part::default(), Part::default()];
    for l in (5..5 + labels).map(|l| l as u8) {
        let part = &mut parts[(l % 9 == 6 || l % 9 == 7 && labels < 12) as usize];
        let kind = if part.functions.len() < part.plain.len() { 2 } else { 1 };
        w.label(l, kind, (kind == 1 && r.chance(1, 20)) as u8);
        if kind == 1 { &mut part.plain } else { &mut part.functions }.push(l);
    }
    for n in 4..32 {
        if r.chance(1, 3) {
            w.name(n, 1 | 2 << r.below(7));
        }
    }
    for v in 2..2 + variables {
        let forbidden = v % 9 == 5;
        let part = &mut parts[forbidden as usize];
        let v = v as u8;
        if part.functions.is_empty() || part.top.is_empty() || r.chance(1, 3) {
            // A named variable is a property of the global object, which both parts could name.
            w.variable(v, 0, if !forbidden && r.chance(1, 6) { name(r) } else { 255 });
            part.top.push(v);
        } else {
            let owner = r.pick(&part.functions);
            w.variable(v, owner, 255);
            part.own.push((owner, v));
        }
    }
    for part in &parts {
        for &f in &part.functions {
            let own: Vec<u8> = part.own.iter().filter(|own| own.0 == f).map(|own| own.1).collect();
            let mut formals = [0; 6];
            for (formal, v) in formals.iter_mut().zip(own.iter().skip(1)) {
                *formal = *v;
            }
            w.function(f, own.first().copied().unwrap_or(0), formals);
        }
    }
    parts
}

fn name(r: &mut Prng) -> u8 {
    r.between(4, 31) as u8
}

/// The scope whose statements are written.
struct Scope<'a> {
    k: u8,
    part: &'a Part,
    own: Vec<u8>,
}

impl Scope<'_> {
    /// Mostly a variable of the function itself, else one of the top level.
    fn some(&self, r: &mut Prng) -> u8 {
        if self.own.is_empty() || r.chance(1, 3) {
            r.pick(&self.part.top)
        } else {
            r.pick(&self.own)
        }
    }

    fn statement(&self, r: &mut Prng, w: &mut Writer) {
        let (k, y, a, b) = (self.k, self.some(r), self.some(r), self.some(r));
        let plain = r.pick(&self.part.plain);
        let key = if r.chance(1, 12) { some_class_key(r) } else { name(r) };
        let six = [(); 6].map(|_| if r.chance(1, 3) { self.some(r) } else { 0 });
        match r.below(100) {
            0..=9 => w.copy(k, y, a),
            10..=37 => w.load(k, y, a, key, plain),
            38..=52 => w.store(k, a, key, b),
            53..=57 => w.make(k, y, plain),
            58..=61 => w.make_function(k, y, r.pick(&self.part.functions), plain),
            62..=83 => w.call(k, y, a, b, six),
            84..=87 => w.new_object(k, y, a, b, plain, six),
            88..=93 if k != 0 => w.give_back(k, a),
            94..=95 => w.throw(k, a),
            96 => w.catch(k, y),
            97 => w.prim(k, a),
            _ => w.copy(k, y, b),
        };
    }
}
