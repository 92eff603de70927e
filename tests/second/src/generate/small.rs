//! The generators for the small edition.

use super::Named;
use crate::edition::Edition;

pub fn random(seed: u64) -> Named {
    super::random_in(Edition::Small, seed)
}

pub fn structured(seed: u64) -> Named {
    super::structured_in(Edition::Small, seed)
}

pub fn rounds(seed: u64) -> Named {
    super::rounds_in(Edition::Small, seed)
}

pub fn damaged(seed: u64) -> Named {
    super::damaged_in(Edition::Small, seed)
}

pub fn edge_mix(seed: u64) -> Named {
    super::edge_mix_in(Edition::Small, seed)
}

pub fn dense(seed: u64) -> Named {
    super::dense_in(Edition::Small, seed)
}

pub fn every(seed: u64) -> Vec<Named> {
    super::every_in(Edition::Small, seed)
}

pub fn edges() -> Vec<Named> {
    super::edges_in(Edition::Small)
}

pub fn sizes() -> Vec<Named> {
    super::sizes_in(Edition::Small)
}
