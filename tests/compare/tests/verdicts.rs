//! Verdict, label, count and every word of the table, on listed, random, structured, many-round, dense and damaged files, on files with returns at the
//! top level of everything the host has, and on files with profiles, against the second solver, in both editions.

use compare::{edition, second_verdict};
use pezvoran::{verdict, Answer, Edition, Large, Small};
use second::generate::{self, Named};

#[derive(Default)]
struct Tally {
    confined: usize,
    leaks: usize,
    refused: [usize; 16],
    /// Tables, kept from call to call: what is lent, and what each implementation makes of it.
    before: Vec<u64>,
    ours: Vec<u64>,
    theirs: Vec<u64>,
}

impl Tally {
    /// Lends tables with stray words, some of them beyond the rows.
    fn compare<E: Edition>(&mut self, name: &str, file: &[u8], length: usize, seed: u64) {
        let Tally { before, ours, theirs, .. } = self;
        before.clear();
        before.extend((1..=length as u64).map(|i| i.wrapping_mul(seed | 1).wrapping_mul(0x9e37_79b9_7f4a_7c15)));
        ours.clone_from(before);
        theirs.clone_from(before);
        let answer = verdict::<E>(file, ours);
        assert_eq!(answer, second_verdict::<E>(file, theirs), "{name}");
        if let Some((word, (a, b))) = ours.iter().zip(theirs.iter()).enumerate().find(|(_, (a, b))| a != b) {
            panic!("{name}: word {word} is {a:#x}, expected {b:#x}");
        }
        match answer {
            Answer::Confined { .. } => self.confined += 1,
            Answer::Leaks { .. } => self.leaks += 1,
            Answer::Refused(refusal) => {
                self.refused[refusal.number as usize] += 1;
                assert!(ours == before, "{name}: a refusal changed a word");
            }
            other => panic!("{name}: {other:?}"),
        }
    }

    fn say<E: Edition>(&self, what: &str) {
        let edition = edition::<E>();
        println!("{edition:?} {what}: {} confined, {} leak, refused by number {:?}", self.confined, self.leaks, &self.refused[1..12]);
    }
}

/// How many words the lent table has beyond its rows.
const BEYOND: [usize; 7] = [0, 1, 2, 3, 4, 33, 99];

fn many<E: Edition>(what: &str, count: u64, make: fn(second::Edition, u64) -> Named) -> Tally {
    let mut tally = Tally::default();
    for seed in 0..count {
        let (name, file) = make(edition::<E>(), seed);
        tally.compare::<E>(&name, &file, E::TABLE_WORDS + BEYOND[seed as usize % BEYOND.len()], seed);
    }
    tally.say::<E>(what);
    tally
}

/// A tenth of the files at least is confined, and a tenth leaks.
fn fairly_shared(tally: Tally) {
    let readable = tally.confined + tally.leaks;
    assert!(10 * tally.confined > readable && 10 * tally.leaks > readable);
}

#[test]
fn random_files_agree() {
    fairly_shared(many::<Small>("random", 3_000, generate::random_in));
    fairly_shared(many::<Large>("random", 250, generate::random_in));
}

#[test]
fn structured_files_agree() {
    fairly_shared(many::<Small>("structured", 3_000, generate::structured_in));
    fairly_shared(many::<Large>("structured", 700, generate::structured_in));
}

/// Labels in all four words of a row, the last one among them.
#[test]
fn spread_labels_agree() {
    fairly_shared(many::<Small>("spread", 300, generate::spread_in));
    fairly_shared(many::<Large>("spread", 600, generate::spread_in));
}

#[test]
fn files_of_many_rounds_agree() {
    many::<Small>("rounds", 300, generate::rounds_in);
    many::<Large>("rounds", 300, generate::rounds_in);
}

/// Full files that need as many rounds as labels times variables.
#[test]
fn relays_agree() {
    many::<Small>("relay", 10, generate::relay_in);
    many::<Large>("relay", 10, generate::relay_in);
}

#[test]
fn dense_full_files_agree() {
    many::<Small>("dense", 20, generate::dense_in);
    many::<Large>("dense", 10, generate::dense_in);
}

/// Returns at the top level at the end, at some places or at all, up to full files.
#[test]
fn returns_at_the_top_level_agree() {
    fairly_shared(many::<Small>("top returns", 400, generate::top_returns_in));
    fairly_shared(many::<Large>("top returns", 60, generate::top_returns_in));
}

/// Guests held to a class, by profiles at the beginning, at the end or anywhere.
#[test]
fn profiles_agree() {
    fairly_shared(many::<Small>("profiles", 1_500, generate::profiles_in));
    fairly_shared(many::<Large>("profiles", 250, generate::profiles_in));
}

#[test]
fn damaged_files_agree() {
    for tally in [many::<Small>("damaged", 6_000, generate::damaged_in), many::<Large>("damaged", 2_000, generate::damaged_in)] {
        assert!(tally.refused[1..8].iter().all(|&n| n > 0));
    }
}

fn edge_values<E: Edition>(mixed: u64) {
    many::<E>("edge mix", mixed, generate::edge_mix_in);
    let mut tally = Tally::default();
    for (i, (name, file)) in generate::edges_in(edition::<E>()).iter().enumerate() {
        tally.compare::<E>(name, file, E::TABLE_WORDS, i as u64);
    }
    for (i, (name, file)) in generate::sizes_in(edition::<E>()).iter().enumerate() {
        tally.compare::<E>(name, file, E::TABLE_WORDS + 1, i as u64);
    }
    tally.say::<E>("edges and sizes");
    assert!(tally.refused[9] > 0);
}

#[test]
fn edge_values_agree() {
    edge_values::<Small>(6_000);
    edge_values::<Large>(2_000);
}

fn short_tables<E: Edition>(lengths: &[usize]) {
    let mut tally = Tally::default();
    let (random, damaged) = (generate::random_in(edition::<E>(), 1), generate::damaged_in(edition::<E>(), 1));
    let files = [random, damaged, ("long".to_string(), vec![3; 40_000]), ("empty".to_string(), vec![])];
    for &length in lengths {
        for (name, file) in &files {
            tally.compare::<E>(name, file, length, 7);
        }
    }
    assert_eq!(tally.refused[8], files.len() * lengths.len());
}

#[test]
fn short_tables_are_refused_first() {
    short_tables::<Small>(&[0, 1, 2, 2_431]);
    short_tables::<Large>(&[0, 1, 4, 2_432, 8_960, 35_836, 35_839]);
}
