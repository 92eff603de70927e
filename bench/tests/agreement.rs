//! The archive, the hand-written solver, the second implementation and the counted passes agree in both editions.

use bench::compared::checked;
use bench::edition::name;
use bench::files::filler::Filler;
use bench::files::lists::{self, Call};
use bench::files::maze::{Maze, Order, Rest, ORDERS};
use bench::files::turned::turned;
use bench::files::worst::{worst, SHAPES};
use bench::files::{dense, ordinary};
use bench::side_by_side::{one_after_the_other, side_by_side};
use bench::{archive, hand, passes};
use pezvoran::{Answer, Refusal};
use second::generate::{dense_in, every_in};
use second::solver::solve;
use second::{read_in, Edition};
use std::time::Duration;

/// Passes that take longer to count are not compared.
const COUNTING: Duration = Duration::from_secs(2);

/// All give the same answer, and the same table where the file is readable.
fn agree(edition: Edition, file_name: &str, file: &[u8]) {
    let title = format!("{}, {file_name}", name(edition));
    let (answer, table) = hand::verdict(edition, file);
    let mut lent = vec![u64::MAX; edition.table_words()];
    assert_eq!(archive::answer(archive::verdict(edition, file, &mut lent)), answer, "{title}: verdict");
    match read_in(edition, file) {
        Ok(program) => {
            assert_eq!(table, solve(&program).table, "{title}: second");
            assert_eq!(table, lent, "{title}: table of the archive");
            assert_eq!(archive::answer(archive::check(edition, file, &lent)), checked(answer), "{title}: check");
            if let Some((_, passed)) = passes::count(&program, COUNTING) {
                assert_eq!(table, passed, "{title}: passes");
            }
        }
        Err(refusal) => {
            let refusal = Refusal { number: refusal.number, position: refusal.position as u64, guest: None };
            assert_eq!(answer, Answer::Refused(refusal), "{title}");
        }
    }
}

#[test]
fn on_seeded_files() {
    for edition in Edition::BOTH {
        let seeded =
            (0..200).flat_map(|seed| every_in(edition, seed)).chain((0..8).map(|seed| dense_in(edition, seed)));
        for (name, file) in seeded {
            agree(edition, &name, &file);
        }
    }
}

#[test]
fn on_ordinary_files() {
    for edition in Edition::BOTH {
        for size in [1, 2, 4, 8, 16, 32] {
            agree(edition, &format!("ordinary, {size} kB"), &ordinary::ordinary(edition, 1024 * size, size as u64));
        }
    }
}

#[test]
fn on_dense_files() {
    for edition in Edition::BOTH {
        for kind in dense::KINDS {
            agree(edition, &format!("dense, kind {kind}"), &dense::dense(edition, kind, 3));
        }
    }
}

/// A file has the same answer and table under class keys and under outside keys.
#[test]
fn on_files_under_outside_keys() {
    for edition in Edition::BOTH {
        let lures = Maze { size: 8192, variables: 30, ways: 5, order: Order::Backwards, rest: Rest::Lures };
        let dense = [17, 18].map(|kind| dense::dense_under_class_keys(edition, kind, 3));
        for (i, file) in dense.into_iter().chain([lures.file(edition, 3)]).enumerate() {
            let outside = turned(&file);
            assert_ne!(outside, file);
            assert_eq!(hand::verdict(edition, &outside), hand::verdict(edition, &file));
            agree(edition, &format!("class keys, {i}"), &file);
            agree(edition, &format!("outside keys, {i}"), &outside);
        }
    }
}

/// Returns at the top level add no fact.
#[test]
fn on_files_with_returns_at_the_top_level() {
    for edition in Edition::BOTH {
        for (name, [without, with]) in lists::modules(edition) {
            assert_ne!(without, with);
            assert_eq!(hand::verdict(edition, &without), hand::verdict(edition, &with));
            agree(edition, &format!("without returns, {name}"), &without);
            agree(edition, &format!("with returns, {name}"), &with);
        }
    }
}

#[test]
fn on_courses() {
    for edition in Edition::BOTH {
        for shape in SHAPES {
            agree(edition, &format!("{shape:?}"), &worst(edition, shape, Filler::Mixed, true, 3));
        }
    }
}

#[test]
fn on_mazes_and_lures() {
    for edition in Edition::BOTH {
        for order in ORDERS {
            let doors = [Rest::Relays, Rest::Returns, Rest::Throws];
            for rest in [Rest::Nothing, Rest::Sightseers, Rest::Lures, Rest::Prims].into_iter().chain(doors) {
                let maze = Maze { size: 8192, variables: 30, ways: 5, order, rest };
                agree(edition, &format!("{maze:?}"), &maze.file(edition, 3));
            }
        }
    }
}

/// Eight verdicts at the same time leave what they leave one after the other, in each edition and in both together.
#[test]
fn side_by_side_and_one_after_the_other() {
    let some = |edition, seeds: std::ops::RangeInclusive<u64>| {
        seeds.map(move |seed| (edition, ordinary::ordinary(edition, 4096, seed)))
    };
    let [small, large] = Edition::BOTH;
    let courses =
        |edition| SHAPES[..4].iter().map(move |&shape| (edition, worst(edition, shape, Filler::Mixed, true, 3)));
    let groups: [Vec<Call>; 3] = [
        some(small, 1..=4).chain(courses(small)).collect(),
        some(large, 1..=4).chain(courses(large)).collect(),
        some(small, 5..=8).chain(some(large, 5..=8)).collect(),
    ];
    for calls in groups {
        assert_eq!(calls.len(), 8);
        let [one, other] = [one_after_the_other, side_by_side].map(|way| way(&calls, 3).left);
        assert!(one == other, "side by side and one after the other");
        let by_hand: Vec<_> = calls.iter().map(|(edition, file)| hand::verdict(*edition, file)).collect();
        assert!(one == by_hand, "archive and hand-written solver");
    }
}
