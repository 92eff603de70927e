//! What the search makes of readable files is readable and no longer than allowed.

use bench::files::filler::Filler;
use bench::files::worst::{worst, Shape};
use bench::files::LONGEST;
use bench::mutate::mutated;
use second::prng::Prng;
use second::{read_in, Edition};

#[test]
fn readable() {
    for edition in Edition::BOTH {
        let mut r = Prng::new(1);
        let other = worst(edition, Shape::Calls, Filler::Mixed, true, 1);
        let start = worst(edition, Shape::Longest, Filler::Loads, true, 1);
        let mut file = start.clone();
        for _ in 0..300 {
            file = mutated(&mut r, edition, &file, &other);
            assert!(read_in(edition, &file).is_ok());
            assert!((LONGEST - 12..=LONGEST).contains(&file.len()));
        }
        assert_ne!(file, start);
    }
}
