//! Profiles in generated files of both editions: every generator writes them, they take facts and leaks away, and they are of every sort.

use second::generate::profiles::{profile, without_profile};
use second::generate::top_returns::records;
use second::generate::{
    damaged_in, dense_in, edge_mix_in, profiles_in, random_in, spread_in, structured_in, top_returns_in, Named,
};
use second::keys::{CLASSES, KEY_OF_CLASS, PROTOTYPE};
use second::reader::read_in;
use second::solver::{solve, Verdict};
use second::Edition;

type Make = fn(Edition, u64) -> Named;

fn profiles(file: &[u8]) -> impl Iterator<Item = u8> + '_ {
    records(file).filter_map(profile)
}

/// Profiles stand in files of every generator but those of many rounds; damaged files have bad ones and repeats too.
#[test]
fn profiles_are_everywhere() {
    let makers: [(Make, u64); 8] = [
        (random_in, 100),
        (structured_in, 100),
        (spread_in, 100),
        (dense_in, 20),
        (damaged_in, 100),
        (edge_mix_in, 400),
        (top_returns_in, 100),
        (profiles_in, 100),
    ];
    for (edition, (make, seeds)) in Edition::BOTH.into_iter().flat_map(|e| makers.map(|make| (e, make))) {
        let with = (0..seeds).filter(|&seed| profiles(&make(edition, seed).1).next().is_some()).count();
        println!("{edition:?} {}: {with} of {seeds} files have a profile", make(edition, 0).0);
        assert!(20 * with as u64 >= seeds, "{edition:?} {}", make(edition, 0).0);
    }
    for (edition, make) in Edition::BOTH.into_iter().flat_map(|e| [(e, damaged_in as Make), (e, edge_mix_in)]) {
        let files: Vec<Vec<u8>> = (0..4000).map(|seed| make(edition, seed).1).collect();
        let bad = files.iter().filter(|file| profiles(file).any(|class| class >= CLASSES)).count();
        let repeated = files.iter().filter(|file| profiles(file).count() > 1).count();
        println!("{edition:?} {}: {bad} of 4000 files have a bad profile, {repeated} two", make(edition, 0).0);
        assert!(bad >= 20 && repeated >= 5);
    }
}

/// What a profile does to a file: another table, another verdict, and whether its class has the name of prototype properties; and whether records of names
/// in its class, but for class 0, stand before it and behind it.
#[derive(Default, Debug)]
struct Held {
    files: usize,
    other_tables: usize,
    confined_by_it: usize,
    with_prototypes: usize,
    without_prototypes: usize,
    named_before: usize,
    named_behind: usize,
}

impl Held {
    fn count(&mut self, edition: Edition, file: &[u8]) {
        let Some(class) = profiles(file).next() else { return };
        let held = read_in(edition, file).expect("readable");
        let free = solve(&read_in(edition, &without_profile(file)).expect("readable"));
        let answer = solve(&held);
        self.files += 1;
        self.other_tables += (answer.table != free.table) as usize;
        self.confined_by_it += (answer.verdict != free.verdict) as usize;
        let prototypes = held.key_has(KEY_OF_CLASS + class, PROTOTYPE);
        self.with_prototypes += (class > 0 && prototypes) as usize;
        self.without_prototypes += !prototypes as usize;
        let named = |record: &&[u8]| matches!(**record, [1, _, mask] if class > 0 && mask >> class & 1 == 1);
        let place = records(file).position(|record| profile(record).is_some()).unwrap_or(0);
        self.named_before += records(file).take(place).any(|record| named(&record)) as usize;
        self.named_behind += records(file).skip(place).any(|record| named(&record)) as usize;
    }
}

/// Files of each sort: a profile takes facts away, and in files that are not random often the leak; its class has name 3 or lacks it; the masks that it goes
/// by stand before and behind.
#[test]
fn every_sort_of_profile_counts() {
    let makers: [(&str, Make); 3] = [("random", random_in), ("structured", structured_in), ("profiles", profiles_in)];
    for (edition, (title, make)) in Edition::BOTH.into_iter().flat_map(|e| makers.map(|make| (e, make))) {
        let mut held = Held::default();
        for file in (0..400).map(|seed| make(edition, seed).1).filter(|file| file.len() < 5_000) {
            held.count(edition, &file);
        }
        println!("{edition:?} {title}: {held:?}");
        let Held {
            files,
            other_tables,
            confined_by_it,
            with_prototypes,
            without_prototypes,
            named_before,
            named_behind,
        } = held;
        assert!(files >= 50 && other_tables >= 30, "{edition:?} {title}");
        assert!(confined_by_it >= 20 || title == "random", "{edition:?} {title}");
        let sorts = [with_prototypes, without_prototypes, named_before, named_behind];
        assert!(sorts.into_iter().all(|count| count >= 10), "{edition:?} {title}");
    }
}

/// The pieces that trust in the profile are confined by it; others of them leak only because a name is in its class.
#[test]
fn profiles_keep_fields_listeners_and_prototypes() {
    for (edition, piece) in Edition::BOTH.into_iter().flat_map(|e| ["field", "listener", "prototype"].map(|p| (e, p))) {
        let leaks = |file: &[u8]| solve(&read_in(edition, file).expect("readable")).verdict != Verdict::Confined;
        let (mut confined, mut leaking) = (0, 0);
        let of_the_piece = |name: &str| name.contains(&format!("-kept_{piece}"));
        for (_, file) in (0..3000).map(|seed| structured_in(edition, seed)).filter(|(name, _)| of_the_piece(name)) {
            if leaks(&file) {
                leaking += 1;
            } else {
                confined += leaks(&without_profile(&file)) as usize;
            }
        }
        println!("{edition:?} {piece}: {confined} files are confined by their profiles, {leaking} leak all the same");
        assert!(confined >= 20 && leaking >= 20);
    }
}
