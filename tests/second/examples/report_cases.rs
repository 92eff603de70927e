//! Writes the files of the Rattle program `cases` and what it must print, of each file in both editions: document 01's eight listed files, four structured
//! files that use every kind of record and return at the top level, two confined and two leaking, two more with labels above 63, request 01's example with
//! keys on both sides of their borders, two random files whose tables hang on keys outside a class, and files with a profile: request 04's examples, a guest
//! that leaks without it, and one whose class has the name. Run from this package's folder.

use second::check::check_in;
use second::edition::Edition;
use second::generate::rekey::rekey;
use second::generate::top_returns::{records, top_return};
use second::generate::{random, structured_in};
use second::keys::{EVERY_NAME, KEY_OUTSIDE_CLASS};
use second::reader::{read, read_in, record_starts};
use second::report::report_in;
use second::solver::{solve, Answer, Verdict};
use std::collections::BTreeSet;
use std::fs;

fn kinds(file: &[u8]) -> BTreeSet<u8> {
    record_starts(file).into_iter().map(|start| file[start]).collect()
}

fn answer(edition: Edition, file: &[u8]) -> Answer {
    solve(&read_in(edition, file).expect("readable"))
}

fn leaks(answer: &Answer) -> bool {
    matches!(answer.verdict, Verdict::Leaks(_))
}

fn listed() -> Vec<Vec<u8>> {
    let journal = [[2, 5, 1, 0].as_slice(), &[3, 5], &[5, 2, 0, 255], &[8, 2, 5]].concat();
    let named = [[2, 5, 1, 0].as_slice(), &[3, 5], &[5, 2, 0, 4], &[8, 2, 5]].concat();
    let built_in = [[2, 5, 1, 1].as_slice(), &[3, 5], &[5, 2, 0, 255], &[8, 2, 5], &[6, 2]].concat();
    let function =
        [&journal, [2, 6, 2, 0].as_slice(), &[5, 3, 0, 255], &[4, 6, 0, 0, 0, 0, 0, 0, 0], &[8, 3, 6], &[6, 3]]
            .concat();
    let granted = [&journal, [6, 2].as_slice()].concat();
    let returned = [&function, [23, 6, 2].as_slice()].concat();
    vec![vec![], vec![3, 3], journal, named, granted, built_in, function, returned]
}

/// The keys of request 01's example.
const KEYS: [u8; 7] = [4, 129, 135, 136, 137, 143, 144];

/// Request 01's example: name 4, of class 1, holds label 6, and a load with the key gives the guest what it finds.
fn with_key(key: u8) -> Vec<u8> {
    let names = [[1, 4, 3].as_slice(), &[2, 5, 1, 0], &[2, 6, 1, 0], &[5, 2, 0, 255], &[5, 3, 0, 255]].concat();
    [&names, [8, 2, 5].as_slice(), &[7, 5, 4, 6], &[6, 3], &[17, 0, 3, 2, key, 5]].concat()
}

/// The first random file of at most 1,000 bytes that leaks or not as asked, and has another table if its keys outside a class have every name.
fn outside_keys(leaking: bool) -> Vec<u8> {
    let every = |key| if key > KEY_OUTSIDE_CLASS { EVERY_NAME } else { key };
    (0..)
        .map(|seed| random(seed).1)
        .find(|file| {
            let answer_of = |file: &[u8]| answer(Edition::Small, file);
            file.len() <= 1_000
                && leaks(&answer_of(file)) == leaking
                && answer_of(file).table != answer_of(&rekey(file, every)).table
        })
        .unwrap()
}

/// Profiles: to a class without names, with name 3, with every name; a bad one, a second one, a second one that is bad; and, in the file of a guest that
/// holds an object with label 5, which is forbidden, under name 4: none, one that keeps it from name 4, and one that does not.
fn profiles() -> Vec<Vec<u8>> {
    let object =
        [[2, 5, 1, 0].as_slice(), &[3, 5], &[2, 6, 1, 0], &[5, 2, 0, 255], &[8, 2, 6], &[7, 6, 4, 5], &[6, 2]].concat();
    let held = [&object, [9, 1].as_slice()].concat();
    let listed = [&held, [1, 4, 3].as_slice()].concat();
    let alone = [vec![9, 1], vec![9, 1, 1, 3, 3], vec![9, 0], vec![9, 8], vec![9, 0, 9, 1], vec![9, 0, 9, 9]];
    alone.into_iter().chain([object, held, listed]).collect()
}

/// What is printed of a file in an edition: the verdict, and what the check says of the table that it left.
fn lines_in(edition: Edition, file: &[u8]) -> String {
    let table = read_in(edition, file).map_or(vec![0; edition.table_words()], |program| solve(&program).table);
    let checked = match check_in(edition, file, &table) {
        Ok(()) => "accepted\n".to_string(),
        Err(r) => format!("refused {} {}\n", r.number, r.position),
    };
    report_in(edition, file) + &checked
}

/// The first structured file of the edition from a seed on that uses every kind, returns at the top level, leaks or not as asked, and is none of the small
/// edition where it is a large one.
fn every_kind(edition: Edition, from: u64, leaking: bool) -> Vec<u8> {
    (from..)
        .map(|seed| structured_in(edition, seed).1)
        .find(|f| {
            kinds(f).len() == 20
                && records(f).any(|record| top_return(record).is_some())
                && (edition == Edition::Small || read(f).is_err())
                && leaks(&answer(edition, f)) == leaking
        })
        .unwrap()
}

fn main() -> std::io::Result<()> {
    let mut cases: Vec<(String, Vec<u8>)> =
        listed().into_iter().enumerate().map(|(i, f)| (format!("listed-{}", i + 1), f)).collect();
    for (number, leaking) in (1..).zip([false, false, true, true]) {
        cases.push((format!("every-{number}"), every_kind(Edition::Small, 10_000 * number, leaking)));
    }
    for (number, leaking) in (1..).zip([false, true]) {
        cases.push((format!("large-{number}"), every_kind(Edition::Large, 10_000 * number, leaking)));
    }
    cases.extend(KEYS.map(|key| (format!("key-{key}"), with_key(key))));
    for (number, leaking) in (1..).zip([false, true]) {
        cases.push((format!("outside-{number}"), outside_keys(leaking)));
    }
    cases.extend(profiles().into_iter().enumerate().map(|(i, file)| (format!("profile-{}", i + 1), file)));
    let mut lines = String::new();
    for (name, file) in &cases {
        for edition in Edition::BOTH {
            lines += &lines_in(edition, file);
        }
        fs::write(format!("../../crates/cases/data/{name}"), file)?;
    }
    fs::write("../../crates/cases/stdout", &lines)?;
    print!("{lines}");
    Ok(())
}
