//! Wrong readers: each takes a file as the right one takes another, and must be noticed by files of every source.

use second::generate::{damaged_in, edge_mix_in, edges_in, Named};
use second::reader::read_in;
use second::Edition;

/// Each reader, with its title and how it takes records, refuses some file of each source otherwise than the right one does.
pub fn all_are_noticed<T: Copy>(readers: &[(&str, T)], taken: fn(&[u8], T) -> Vec<u8>) {
    for edition in Edition::BOTH {
        let seeded = |make: fn(Edition, u64) -> Named| (0..6000).map(|seed| make(edition, seed)).collect();
        let sources: [Vec<Named>; 3] = [edges_in(edition), seeded(edge_mix_in), seeded(damaged_in)];
        for &(title, take) in readers {
            let wrong = |file: &[u8]| read_in(edition, file).err() != read_in(edition, &taken(file, take)).err();
            let found =
                sources.each_ref().map(|files| files.iter().find(|(_, file)| wrong(file)).map(|(name, _)| name));
            println!("{edition:?} {title}: {found:?}");
            assert!(found.iter().all(|name| name.is_some()), "{edition:?} {title}");
        }
    }
}
