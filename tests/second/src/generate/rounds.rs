//! Generator (c): files whose facts need many rounds, chains laid against the order of the file.

use super::chains::MAKERS;
use super::relabel::{any_order, relabel};
use super::writer::Writer;
use super::{title, Named};
use crate::edition::Edition;
use crate::prng::Prng;

/// How far chains go in an edition, as the labels and the 254 variables allow.
pub struct Most {
    /// The last label of a chain with two variables for each label, and how far the second is from the first.
    pub two: u8,
    pub second: u8,
    /// The same with three variables, each as far from the next.
    pub three: u8,
    pub third: u8,
}

/// Makes one long chain (copies, properties, prototypes, throws, calls, returns, globals or a mixture) that ends in the bag or not;
/// in the large edition also chains through all labels, and labels of any number.
pub fn rounds_in(edition: Edition, seed: u64) -> Named {
    let mut r = Prng::new(seed.wrapping_mul(13).wrapping_add(0xC));
    let (makers, most) = match edition {
        Edition::Small => (&MAKERS[..8], Most { two: 63, second: 100, three: 60, third: 60 }),
        Edition::Large => (&MAKERS[..], Most { two: 126, second: 127, three: 86, third: 84 }),
    };
    let (kind, maker) = makers[seed as usize % makers.len()];
    let mut chain = maker(&mut r, &most);
    match r.below(8) {
        0 => r.shuffle(&mut chain.links),
        1 => {}
        _ => chain.links.reverse(),
    }
    let mut bytes = chain.head.bytes;
    bytes.extend(chain.links.concat());
    if edition == Edition::Large {
        bytes = relabel(&bytes, &any_order(&mut r));
    }
    (format!("{}-{kind}", title(edition, "rounds", seed)), bytes)
}

/// Declarations, and the links of the chain in the order in which facts pass them.
pub struct Chain {
    pub head: Writer,
    links: Vec<Vec<u8>>,
}

impl Chain {
    /// A file with plain label 5 (forbidden) in variable 2, which has no name, and plain label 6.
    pub fn start() -> Chain {
        let mut chain = Chain { head: Writer::new(), links: Vec::new() };
        chain.head.label(5, 1, 0).label(6, 1, 0).forbid(5).variable(2, 0, 255);
        chain.link(|w| w.held(2, 5));
        chain
    }

    pub fn link(&mut self, write: impl FnOnce(&mut Writer) -> &mut Writer) {
        let mut w = Writer::new();
        write(&mut w);
        self.links.push(w.bytes);
    }

    pub fn top(&mut self, from: u8, to: u8) {
        for v in from..=to {
            self.head.variable(v, 0, 255);
        }
    }

    /// Functions `from` to `to`, where function f has a variable `v(f)` of its own as this and as first formal.
    pub fn functions(&mut self, from: u8, to: u8, v: impl Fn(u8) -> u8) {
        for f in from..=to {
            self.head.label(f, 2, 0).variable(v(f), f, 255).function(f, v(f), [v(f), 0, 0, 0, 0, 0]);
        }
    }

    /// Grants the end of the chain, or a step before it, or nothing.
    pub fn end(&mut self, r: &mut Prng, v: u8) {
        if r.chance(2, 3) {
            self.link(|w| w.grant(v));
        }
    }
}
