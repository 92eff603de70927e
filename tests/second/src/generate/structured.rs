//! Generator (b): files put together from small pieces of sensible host code around forbidden objects.

use super::gadgets::gadgets;
use super::kit::Kit;
use super::relabel::{any_order, relabel};
use super::{title, Named};
use crate::edition::Edition;
use crate::prng::Prng;

/// Makes a file of some pieces (closures, prototypes, throws, arrays, call-backs and so on) that share variables: one to six,
/// in the large edition up to twenty, whose labels are then given any numbers.
pub fn structured_in(edition: Edition, seed: u64) -> Named {
    let mut kit = Kit::new(edition, Prng::new(seed.wrapping_mul(11).wrapping_add(0xB)));
    let mut name = title(edition, "structured", seed);
    let most = if edition == Edition::Large { 20 } else { 6 };
    for _ in 0..kit.r.between(1, most) {
        if kit.has_room() {
            let (title, gadget) = kit.r.pick(gadgets(edition));
            name = name + "-" + title;
            gadget(&mut kit);
        }
    }
    let mut r = kit.r.clone();
    let file = kit.finish();
    (name, if edition == Edition::Large { relabel(&file, &any_order(&mut r)) } else { file })
}
