//! Random walks over the second, independent model of the machine: every value met lies within the table that `verdict` left, and a confined file
//! never puts a forbidden label in the bag; in both editions.

use compare::edition;
use pezvoran::{verdict, Answer, Edition, Large, Small};
use second::generate::{self, Named};
use second::machine::walk;
use second::read_in;

fn walks<E: Edition>(what: &str, files: u64, steps: usize, make: fn(second::Edition, u64) -> Named) {
    let mut walked = 0;
    for seed in 0..files {
        let (name, file) = make(edition::<E>(), seed);
        let mut table = vec![0; E::TABLE_WORDS];
        let answer = verdict::<E>(&file, &mut table);
        assert!(!matches!(answer, Answer::Refused(_)), "{name}: {answer}");
        let program = read_in(edition::<E>(), &file).expect("the verdict read it");
        for round in 0..2 {
            if let Err(violation) = walk(&program, &table, seed * 2 + round, steps) {
                panic!("{name}: {violation}");
            }
            walked += 1;
        }
    }
    println!("{:?} {what}: {walked} walks of {steps} steps", edition::<E>());
}

#[test]
fn walks_over_structured_files_stay_within_the_table() {
    walks::<Small>("structured", 1_000, 2_000, generate::structured_in);
    walks::<Large>("structured", 500, 2_000, generate::structured_in);
}

#[test]
fn walks_over_files_with_returns_at_the_top_level_stay_within_the_table() {
    walks::<Small>("top returns", 60, 2_000, generate::top_returns_in);
    walks::<Large>("top returns", 30, 2_000, generate::top_returns_in);
}

#[test]
fn walks_over_files_with_profiles_stay_within_the_table() {
    walks::<Small>("profiles", 300, 2_000, generate::profiles_in);
    walks::<Large>("profiles", 100, 2_000, generate::profiles_in);
}

#[test]
fn walks_over_random_files_stay_within_the_table() {
    walks::<Small>("random", 500, 1_000, generate::random_in);
    walks::<Large>("random", 250, 1_000, generate::random_in);
}
