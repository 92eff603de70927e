//! The generators in both editions: the same file for the same seed, readable where they promise it, of every kind, with every sort of key
//! and of return at the top level.

use second::generate::rekey::{key_positions, rekey};
use second::generate::top_returns::{records, top_return};
use second::generate::{
    damaged_in, dense_in, edge_mix_in, every, every_in, profiles_in, random_in, relay_in, rounds_in, spread_in,
    structured_in, top_returns_in, Named,
};
use second::keys::{Key, EVERY_NAME, KEY_OF_CLASS, NO_NAME};
use second::program::{Program, Record};
use second::reader::{read_in, record_starts};
use second::solver::{solve, Verdict};
use second::Edition;
use std::time::{Duration, Instant};

type Make = fn(Edition, u64) -> Named;
const READABLE: [(&str, Make); 6] = [
    ("random", random_in),
    ("structured", structured_in),
    ("rounds", rounds_in),
    ("spread", spread_in),
    ("top returns", top_returns_in),
    ("profiles", profiles_in),
];

/// Files that are confined and that leak, among `seeds` seeds; the time of the slowest solution is printed.
fn shares(edition: Edition, title: &str, make: Make, seeds: u64) -> (u64, u64) {
    let (mut confined, mut leaks, mut bytes, mut facts) = (0, 0, 0, 0u64);
    let mut slowest = (Duration::ZERO, String::new());
    for seed in 0..seeds {
        let (name, file) = make(edition, seed);
        let program = read_in(edition, &file).unwrap_or_else(|r| panic!("{name}: {r:?}"));
        let started = Instant::now();
        let answer = solve(&program);
        slowest = slowest.max((started.elapsed(), name));
        match answer.verdict {
            Verdict::Confined => confined += 1,
            Verdict::Leaks(_) => leaks += 1,
        }
        bytes += file.len();
        facts += answer.facts as u64;
    }
    println!(
        "{edition:?} {title}: {confined} confined, {leaks} leak, {} bytes and {} facts on average, slowest {slowest:?}",
        bytes as u64 / seeds,
        facts / seeds
    );
    (confined, leaks)
}

#[test]
fn same_seed_same_file() {
    for seed in 0..300 {
        for edition in Edition::BOTH {
            assert_eq!(every_in(edition, seed), every_in(edition, seed));
        }
        assert_eq!(every(seed), every_in(Edition::Small, seed));
    }
    for edition in Edition::BOTH {
        assert_ne!(random_in(edition, 1).1, random_in(edition, 2).1);
        assert_ne!(structured_in(edition, 1).1, structured_in(edition, 2).1);
    }
}

#[test]
fn fair_shares_of_readable_files() {
    for edition in Edition::BOTH {
        for (title, make) in READABLE {
            let (confined, leaks) = shares(edition, title, make, 1000);
            assert!(confined >= 100 && leaks >= 100, "{edition:?} {title}");
        }
    }
}

#[test]
fn dense_files_are_full() {
    for edition in Edition::BOTH {
        shares(edition, "dense", dense_in, 60);
        assert!((0..60).all(|seed| dense_in(edition, seed).1.len() == 32_768));
    }
}

/// Every runner passes the whole course: the last of them, which is forbidden, is in the last variable.
#[test]
fn relays_are_full_and_run_to_their_end() {
    for edition in Edition::BOTH {
        shares(edition, "relay", relay_in, 10);
        for seed in 0..10 {
            let (name, file) = relay_in(edition, seed);
            let program = read_in(edition, &file).expect("readable");
            let reached = edition.row(&solve(&program).table, edition.s(255));
            assert!(file.len() == 32_768 && reached.count() as usize > edition.labels() - 30, "{name}");
            assert!(!(reached & program.forbidden).is_empty(), "{name}");
        }
    }
}

#[test]
fn every_kind_is_written() {
    let mixed = READABLE.into_iter().filter(|(title, _)| *title != "rounds");
    for (edition, (title, make)) in Edition::BOTH.into_iter().flat_map(|e| mixed.clone().map(move |make| (e, make))) {
        let mut counts = [0usize; 27];
        for seed in 0..400 {
            let file = make(edition, seed).1;
            for start in record_starts(&file) {
                counts[file[start] as usize] += 1;
            }
        }
        println!("{edition:?} {title}: records by kind {counts:?}");
        assert!((1..=9).chain(16..=26).all(|kind| counts[kind] > 0), "{edition:?} {title}");
    }
}

/// Another key for the keys of a sort, and none for all others.
type Exchange = fn(Key) -> Option<u8>;
const OUTSIDE_TO_NONE: Exchange = |key| matches!(key, Key::OutsideClass(1..)).then_some(NO_NAME);
const OUTSIDE_TO_EVERY: Exchange = |key| matches!(key, Key::OutsideClass(1..)).then_some(EVERY_NAME);
const EXCHANGES: [(&str, Exchange); 7] = [
    ("a name to every name", |key| matches!(key, Key::Name(_)).then_some(EVERY_NAME)),
    ("of a class to no name", |key| matches!(key, Key::OfClass(1..)).then_some(NO_NAME)),
    ("of a class to every name", |key| matches!(key, Key::OfClass(1..)).then_some(EVERY_NAME)),
    ("outside a class to no name", OUTSIDE_TO_NONE),
    ("outside a class to every name", OUTSIDE_TO_EVERY),
    ("outside a class to inside", |key| match key {
        Key::OutsideClass(c @ 1..) => Some(KEY_OF_CLASS + c),
        _ => None,
    }),
    ("no name to every name", |key| (key == Key::OutsideClass(0)).then_some(EVERY_NAME)),
];

fn exchanged(file: &[u8], exchange: Exchange) -> Vec<u8> {
    rekey(file, |byte| Key::of(byte).and_then(exchange).unwrap_or(byte))
}

/// Every sort of key is in many files, and in some of them another key in its place gives another table.
#[test]
fn every_sort_of_key_counts() {
    let makers = READABLE.into_iter().filter(|(title, _)| ["random", "structured"].contains(title));
    for (edition, (title, make)) in Edition::BOTH.into_iter().flat_map(|e| makers.clone().map(move |make| (e, make))) {
        let table = |file: &[u8]| solve(&read_in(edition, file).expect("readable")).table;
        let mut found = [(0, 0); EXCHANGES.len()];
        for file in (0..300).map(|seed| make(edition, seed).1).filter(|file| file.len() < 3_000) {
            let before = table(&file);
            for ((files, other_tables), (_, exchange)) in found.iter_mut().zip(EXCHANGES) {
                let changed = exchanged(&file, exchange);
                if changed != file {
                    *files += 1;
                    *other_tables += (table(&changed) != before) as usize;
                }
            }
        }
        for ((files, other_tables), (what, _)) in found.into_iter().zip(EXCHANGES) {
            println!("{edition:?} {title}, {what}: another table of {other_tables} files of {files}");
            assert!(files >= 10 && other_tables >= 5, "{edition:?} {title}, {what}");
        }
    }
}

/// Keys outside a class stand in files of many rounds and in full ones too.
#[test]
fn keys_outside_a_class_are_everywhere() {
    for edition in Edition::BOTH {
        for (make, seeds) in
            [(rounds_in as Make, 40), (spread_in, 40), (dense_in, 10), (relay_in, 10), (damaged_in, 40)]
        {
            let files = (0..seeds).map(|seed| make(edition, seed).1);
            let outside = |key: u8| matches!(Key::of(key), Some(Key::OutsideClass(_)));
            let with = files.filter(|file| key_positions(file).any(|at| outside(file[at]))).count();
            assert!(with >= 3, "{edition:?} {}", make(edition, 0).0);
        }
    }
}

/// A list of names guards hidden fields: with lookups under every name some confined files would leak. Others leak only because a hidden
/// name is not on the list.
#[test]
fn lists_of_names_guard_hidden_fields() {
    for edition in Edition::BOTH {
        let leaks = |file: &[u8]| solve(&read_in(edition, file).expect("readable")).verdict != Verdict::Confined;
        let (mut guarded, mut left_off) = (0, 0);
        for (_, file) in (0..1000).map(|seed| structured_in(edition, seed)).filter(|(name, _)| name.contains("hidden"))
        {
            if leaks(&file) {
                left_off += !leaks(&exchanged(&file, OUTSIDE_TO_NONE)) as usize;
            } else {
                guarded += leaks(&exchanged(&file, OUTSIDE_TO_EVERY)) as usize;
            }
        }
        println!("{edition:?}: {guarded} files are guarded, {left_off} leak by a name left off the list");
        assert!(guarded >= 20 && left_off >= 5);
    }
}

fn returns_at_the_top(file: &[u8]) -> bool {
    records(file).any(|record| top_return(record).is_some())
}

/// Returns at the top level stand in files of every generator but those of many rounds.
#[test]
fn returns_at_the_top_level_are_everywhere() {
    // Each with a number of seeds, and of how many files one at least returns: files at the edges draw a kind at random.
    let makers: [(Make, u64, u64); 7] = [
        (random_in, 100, 40),
        (structured_in, 100, 40),
        (spread_in, 100, 40),
        (dense_in, 10, 40),
        (damaged_in, 100, 40),
        (edge_mix_in, 400, 50),
        (top_returns_in, 100, 40),
    ];
    for (edition, (make, seeds, of)) in Edition::BOTH.into_iter().flat_map(|e| makers.map(|make| (e, make))) {
        let with = (0..seeds).filter(|&seed| returns_at_the_top(&make(edition, seed).1)).count();
        println!("{edition:?} {}: {with} of {seeds} files return at the top level", make(edition, 0).0);
        assert!(of * with as u64 >= seeds, "{edition:?} {}", make(edition, 0).0);
    }
}

/// What a return at the top level gives: 0 nothing, 1 a variable of the top level, 2 one with a name, 3 one of a function, 4 a formal.
fn sort_of_value(program: &Program, value: u8) -> usize {
    let formal = program.functions.iter().flatten().any(|f| f.formals.contains(&value));
    match program.variables[value as usize] {
        None => 0,
        Some(_) if formal => 4,
        Some(variable) if variable.owner != 0 => 3,
        Some(variable) if variable.name.is_some() => 2,
        Some(_) => 1,
    }
}

/// The variable whose labels the record calls, and 0 for a call, 1 for new, 2 for prim.
fn called(record: Record) -> Option<(usize, u8)> {
    match record {
        Record::Call { callee, .. } => Some((0, callee)),
        Record::New { callee, .. } => Some((1, callee)),
        Record::Prim { object, .. } => Some((2, object)),
        _ => None,
    }
}

/// Values of every sort are returned at the top level, in files in which calls, news and prims of the host have the global object. (Files of many
/// rounds have few calls, and structured ones not every sort of value.)
#[test]
fn every_sort_of_return_at_the_top_level() {
    for (edition, (title, make)) in Edition::BOTH.into_iter().flat_map(|e| READABLE.map(|make| (e, make))) {
        let (mut values, mut calls) = ([0; 5], [0; 3]);
        for file in (0..200).map(|seed| make(edition, seed).1).filter(|file| returns_at_the_top(file)) {
            let program = read_in(edition, &file).expect("readable");
            let table = solve(&program).table;
            records(&file).filter_map(top_return).for_each(|value| values[sort_of_value(&program, value)] += 1);
            for (kind, variable) in program.records.iter().filter_map(|&record| called(record)) {
                calls[kind] += edition.row(&table, edition.s(variable)).has(0) as usize;
            }
        }
        println!("{edition:?} {title}: values by sort {values:?}, the global object is called by {calls:?} records");
        let all = ["random", "spread", "top returns"].contains(&title);
        assert!(!all || values.into_iter().chain(calls).all(|count| count >= 10), "{edition:?} {title}");
        assert!(title == "rounds" || calls.into_iter().all(|count| count >= 10), "{edition:?} {title}");
    }
}

#[test]
fn sizes_of_random_files() {
    for edition in Edition::BOTH {
        let lengths: Vec<usize> = (0..400).map(|seed| random_in(edition, seed).1.len()).collect();
        assert!(lengths.iter().any(|&n| n < 50) && lengths.contains(&32_768) && lengths.iter().all(|&n| n <= 32_768));
    }
}

/// Files of the large edition have 200 and more labels, few, or any number; those of any generator are declared in all words of a row.
#[test]
fn labels_of_the_large_edition() {
    let counts = |make: Make, seeds: u64| -> Vec<(usize, usize)> {
        let files = (0..seeds).map(|seed| make(Edition::Large, seed).1);
        files
            .map(|file| {
                let declared = read_in(Edition::Large, &file).expect("readable").declared_row();
                (declared.count() as usize, file.len())
            })
            .collect()
    };
    for (title, make) in READABLE.into_iter().filter(|(title, _)| *title != "spread") {
        let all = counts(make, 400);
        let many = all.iter().filter(|(labels, _)| *labels >= 200).count();
        let full = all.iter().filter(|(labels, bytes)| *labels >= 200 && *bytes == 32_768).count();
        println!("{title}: {many} of 400 files have 200 labels or more, {full} of them full size");
        assert!(many >= 10 && (full >= 5 || title != "random"), "{title}");
    }
    assert!(counts(dense_in, 10).iter().all(|(labels, bytes)| *labels == 256 && *bytes == 32_768));
    for (title, make) in READABLE {
        for seed in 0..400 {
            let declared = read_in(Edition::Large, &make(Edition::Large, seed).1).expect("readable").declared_row();
            let words = declared.words(Edition::Large);
            if declared.count() > 50 {
                assert!(words.iter().all(|word| word.count_ones() > 0), "{title} {seed}");
            }
        }
    }
}

/// The last label is declared, forbidden and told by the verdict of some files; files with eight labels of their own or more have some in
/// every word of a row.
#[test]
fn labels_are_spread_over_every_word() {
    for edition in Edition::BOTH {
        let last = (edition.labels() - 1) as u8;
        let (mut forbidden, mut told) = (0, 0);
        for seed in 0..300 {
            let (name, file) = spread_in(edition, seed);
            let program = read_in(edition, &file).expect("readable");
            let declared = program.declared_row();
            if declared.count() >= 5 + 8 && !name.contains("random") {
                assert!(declared.has(last), "{name}");
                assert!(declared.words(edition).iter().all(|word| word.count_ones() > 1), "{name}");
            }
            forbidden += program.forbidden.has(last) as usize;
            told += (solve(&program).verdict == Verdict::Leaks(last)) as usize;
        }
        println!("{edition:?}: label {last} is forbidden in {forbidden} files of 300 and told by {told}");
        assert!(forbidden > 100 && told > 20);
    }
}

#[test]
fn damaged_files_meet_every_refusal() {
    for edition in Edition::BOTH {
        let mut counts = [0usize; 10];
        for seed in 0..4000 {
            let number = read_in(edition, &damaged_in(edition, seed).1).err().map_or(0, |r| r.number);
            counts[number as usize] += 1;
        }
        println!("{edition:?}: damaged by refusal number {counts:?}");
        assert!((0..8).all(|number| counts[number] > 0));
    }
}
