//! Seeded generators of statement files for either edition; each yields a name and the bytes.

pub mod call_gadgets;
pub mod chains;
pub mod damaged;
pub mod dense;
pub mod edges;
pub mod gadgets;
pub mod halves;
pub mod kit;
pub mod object_gadgets;
pub mod profile_gadgets;
pub mod profiles;
pub mod random;
pub mod rekey;
pub mod relabel;
pub mod relay;
pub mod rounds;
pub mod small;
pub mod spread;
pub mod structured;
pub mod tables;
pub mod top_returns;
pub mod writer;

use crate::edition::Edition;
pub use damaged::damaged_in;
pub use dense::dense_in;
pub use edges::{edge_mix_in, edges_in, sizes_in};
pub use profiles::profiles_in;
pub use random::random_in;
pub use relay::relay_in;
pub use rounds::rounds_in;
pub use small::{damaged, dense, edge_mix, edges, every, random, rounds, sizes, structured};
pub use spread::spread_in;
pub use structured::structured_in;
pub use top_returns::top_returns_in;

/// A file with the name to call it by.
pub type Named = (String, Vec<u8>);

/// One file of every seeded generator for the seed, but for those whose files are always full.
pub fn every_in(edition: Edition, seed: u64) -> Vec<Named> {
    let makers = [random_in, structured_in, rounds_in, spread_in, damaged_in, edge_mix_in, top_returns_in, profiles_in];
    makers.map(|make| make(edition, seed)).to_vec()
}

/// The name of a seeded file.
fn title(edition: Edition, generator: &str, seed: u64) -> String {
    match edition {
        Edition::Small => format!("{generator}-{seed}"),
        Edition::Large => format!("large-{generator}-{seed}"),
    }
}
