//! Walks of the handset machine over generated files of both editions: no value outside the table, nothing forbidden in the bag.

use second::generate::writer::Writer;
use second::generate::{profiles_in, random_in, rounds_in, spread_in, structured, structured_in, Named};
use second::machine::{walk, witnessed, Stats};
use second::reader::{read, read_in};
use second::row::Row;
use second::solver::solve;
use second::Edition;

fn walk_all(edition: Edition, title: &str, make: fn(Edition, u64) -> Named, seeds: u64, steps: usize) {
    let mut sum = Stats::default();
    let (mut facts, mut witnessed) = (0u64, 0u64);
    for seed in 0..seeds {
        let (name, file) = make(edition, seed);
        let program = read_in(edition, &file).expect("readable");
        let answer = solve(&program);
        for round in 0..2 {
            let stats =
                walk(&program, &answer.table, seed * 2 + round, steps).unwrap_or_else(|e| panic!("{name}: {e}"));
            sum.steps += stats.steps;
            sum.done += stats.done;
            sum.calls += stats.calls;
            sum.news += stats.news;
            sum.prims += stats.prims;
            sum.returns += stats.returns;
            sum.throws += stats.throws;
            sum.handed += stats.handed;
            sum.catches += stats.catches;
            sum.stores += stats.stores;
            sum.found += stats.found;
            sum.grants += stats.grants;
            facts += answer.facts as u64;
            witnessed += stats.witnessed as u64;
        }
    }
    println!("{edition:?} {title}: {witnessed} of {facts} facts witnessed; {sum:?}");
    let least = [sum.calls, sum.news, sum.returns, sum.throws, sum.handed, sum.catches, sum.stores, sum.found];
    assert!(least.iter().all(|&count| count > 100), "{title}");
}

#[test]
fn random_files() {
    walk_all(Edition::Small, "random", random_in, 300, 1500);
    walk_all(Edition::Large, "random", random_in, 150, 1500);
}

#[test]
fn structured_files() {
    walk_all(Edition::Small, "structured", structured_in, 600, 2000);
    walk_all(Edition::Large, "structured", structured_in, 300, 2000);
}

#[test]
fn rounds_files() {
    walk_all(Edition::Small, "rounds", rounds_in, 160, 2000);
    walk_all(Edition::Large, "rounds", rounds_in, 100, 2000);
}

#[test]
fn spread_files() {
    walk_all(Edition::Large, "spread", spread_in, 150, 2000);
}

/// Guests held to a class.
#[test]
fn profile_files() {
    walk_all(Edition::Small, "profiles", profiles_in, 400, 2000);
    walk_all(Edition::Large, "profiles", profiles_in, 200, 2000);
}

/// Many more files and steps; run with --ignored.
#[test]
#[ignore]
fn long_walks() {
    for edition in Edition::BOTH {
        walk_all(edition, "random", random_in, 6_000, 4000);
        walk_all(edition, "structured", structured_in, 20_000, 4000);
        walk_all(edition, "rounds", rounds_in, 4_000, 4000);
        walk_all(edition, "profiles", profiles_in, 4_000, 4000);
    }
}

/// The walker does reach what leaks: files 5 and 8 of the list put the forbidden object in the bag.
#[test]
fn leaks_are_reached() {
    let mut five = Writer::new();
    five.label(5, 1, 0).forbid(5).variable(2, 0, 255).held(2, 5);
    let mut eight = five.clone();
    five.grant(2);
    eight.label(6, 2, 0).variable(3, 0, 255).function(6, 0, [0; 6]).held(3, 6).grant(3).give_back(6, 2);
    for (file, e) in [five.bytes, eight.bytes].iter().flat_map(|file| Edition::BOTH.map(|e| (file, e))) {
        let program = read_in(e, file).expect("readable");
        let table = solve(&program).table;
        let seen = witnessed(&program, &table, 0..5, 3000).expect("within the table");
        assert_eq!(seen.len(), e.table_words());
        assert_eq!(e.row(&seen, e.s(1)), e.row(&table, e.s(1)));
        assert!(e.row(&seen, e.s(1)).has(5));
    }
}

/// Names 4 and 9 are in class 1, by masks before and after the keys. A load with a key finds what object 5 holds under the names of the
/// key, and a store reaches just these names of object 6.
#[test]
fn walks_choose_the_pairs_of_a_key() {
    let of_class = [4, 9];
    for (e, key) in Edition::BOTH.into_iter().flat_map(|e| [(e, 128), (e, 129), (e, 136), (e, 137), (e, 143)]) {
        let has = |n: u8| match key {
            128 | 143 => true,
            129 => of_class.contains(&n),
            137 => !of_class.contains(&n),
            _ => false,
        };
        let mut w = Writer::new();
        w.name(4, 3).label(5, 1, 0).label(6, 1, 0).label(7, 1, 0).label(8, 1, 0).label(9, 1, 0).label(10, 1, 0);
        w.variable(2, 0, 255).variable(3, 0, 255).variable(4, 0, 255).variable(5, 0, 255);
        w.held(2, 5).held(4, 6).held(5, 7).property(5, 4, 8).property(5, 9, 9).property(5, 10, 10);
        w.load(0, 3, 2, key, 5).store(0, 4, key, 5).name(9, 3);
        let program = read_in(e, &w.bytes).expect("readable");
        let table = solve(&program).table;
        let seen = witnessed(&program, &table, 0..5, 3000).expect("within the table");
        let found: Row = [(4, 8), (9, 9), (10, 10)].into_iter().filter(|(n, _)| has(*n)).map(|(_, l)| l).collect();
        for facts in [seen, table] {
            assert_eq!(e.row(&facts, e.s(3)), found, "{e:?} key {key}");
            let reached = |n: u8| !e.row(&facts, e.h(6, n)).is_empty();
            assert!((0..32).all(|n| reached(n) == has(n)), "{e:?} key {key}");
        }
    }
}

/// The same seed walks the same way.
#[test]
fn walks_repeat() {
    let program = read(&structured(7).1).expect("readable");
    let table = solve(&program).table;
    let once = walk(&program, &table, 9, 2000).map(|stats| format!("{stats:?}"));
    assert_eq!(once, walk(&program, &table, 9, 2000).map(|stats| format!("{stats:?}")));
}

/// A walk notices a table from which a needed fact is missing: S(1) of file 5 without its label.
#[test]
fn a_wrong_table_is_noticed() {
    for (e, l) in
        [(Edition::Small, 5), (Edition::Small, 63), (Edition::Large, 5), (Edition::Large, 64), (Edition::Large, 255)]
    {
        let mut w = Writer::new();
        w.label(l, 1, 0).forbid(l).variable(2, 0, 255).held(2, l).grant(2);
        let program = read_in(e, &w.bytes).expect("readable");
        let mut table = solve(&program).table;
        let rest = e.row(&table, e.s(1)) & !Row::of(l);
        e.put(&mut table, e.s(1), rest);
        assert!((0..5).any(|seed| walk(&program, &table, seed, 500).is_err()));
    }
}
