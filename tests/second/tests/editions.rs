//! The editions against one another: row numbers, a file of the small edition in the large one, and labels under other numbers.

use second::check::check_in;
use second::generate::relabel::{any_order, relabel, Map};
use second::generate::{damaged, dense, edge_mix, random, rounds, structured, Named};
use second::machine::walk;
use second::prng::Prng;
use second::program::Program;
use second::reader::{read_in, Refusal};
use second::row::Row;
use second::rows;
use second::solver::{solve, verdict_in, Answer, Verdict};
use second::Edition::{self, Large, Small};

/// The row of the large edition for a row of the small one: S and H stay, P and T move.
fn moved(row: usize) -> usize {
    match row {
        0..2304 => row,
        2304..2368 => row - 2304 + 8448,
        _ => row - 2368 + 8704,
    }
}

/// The same facts in a table of the large edition.
fn widened(table: &[u64]) -> Vec<u64> {
    let mut wide = vec![0; 35_840];
    for (row, &word) in table[..2_432].iter().enumerate() {
        wide[4 * moved(row)] = word;
    }
    wide
}

/// Refusal 10 tells a row; all other outcomes of the check are the same.
fn widened_outcome(outcome: Result<(), Refusal>) -> Result<(), Refusal> {
    outcome.map_err(|r| if r.number == 10 { Refusal { position: moved(r.position), ..r } } else { r })
}

fn files(seeds: std::ops::Range<u64>) -> impl Iterator<Item = Named> {
    seeds.flat_map(|seed| [random(seed), structured(seed), rounds(seed)])
}

#[test]
fn rows_and_words() {
    assert_eq!((Small.labels(), Small.words(), Small.rows(), Small.table_words()), (64, 1, 2_432, 2_432));
    assert_eq!((Large.labels(), Large.words(), Large.rows(), Large.table_words()), (256, 4, 8_960, 35_840));
    assert_eq!((Small.h(63, 31), Small.p(0), Small.p(63), Small.t(0), Small.t(63)), (2303, 2304, 2367, 2368, 2431));
    assert_eq!((Large.h(255, 31), Large.p(0), Large.p(255), Large.t(0), Large.t(255)), (8447, 8448, 8703, 8704, 8959));
    for e in Edition::BOTH {
        assert_eq!((e.s(0), e.s(255), e.h(0, 0), e.h(5, 4)), (0, 255, 256, 420));
    }
    assert_eq!((rows::ROWS, rows::s(2), rows::h(5, 4), rows::p(3), rows::t(3)), (2_432, 2, 420, 2307, 2371));
    let row = Row::from_words(&[1 << 5, 1, 0, 1 << 63]);
    assert_eq!(row.labels().collect::<Vec<u8>>(), [5, 64, 255]);
    assert_eq!((row.count(), row.lowest(), row.has(64), row.has(65)), (3, Some(5), true, false));
    let mut table = vec![0; 35_840];
    Large.put(&mut table, 8_959, row);
    assert_eq!((&table[35_836..], Large.row(&table, 8_959)), (&[1 << 5, 1, 0, 1 << 63][..], row));
}

/// Readable in the small edition: the same verdict and count in the large one, and the same facts in the rows that moved.
#[test]
fn a_small_file_has_the_same_facts_in_the_large_edition() {
    let mut readable = 0;
    let damaged = (0..1000).flat_map(|seed| [damaged(seed), edge_mix(seed)]);
    for (name, file) in files(0..500).chain((0..10).map(dense)).chain(damaged) {
        let Ok(program) = read_in(Small, &file) else { continue };
        let (small, large) = (solve(&program), solve(&read_in(Large, &file).expect(&name)));
        assert_eq!((large.verdict, large.facts), (small.verdict, small.facts), "{name}");
        assert!(large.table == widened(&small.table), "{name}");
        readable += 1;
    }
    println!("{readable} files");
    assert!(readable > 1500);
}

/// What the small edition refuses, the large one refuses alike, but for 4 where the label byte is from 64 up.
#[test]
fn refusals_of_both_editions() {
    let (mut alike, mut other) = (0, 0);
    for (name, file) in (0..4000).flat_map(|seed| [damaged(seed), edge_mix(seed)]) {
        let (small, large) = (read_in(Small, &file).err(), read_in(Large, &file).err());
        if small == large {
            alike += 1;
        } else {
            let small = small.expect(&name);
            assert_eq!(small.number, 4, "{name}");
            assert_eq!(file[small.position], 2, "{name}");
            assert!(file[small.position + 1] >= 64, "{name}");
            assert!(large.is_none_or(|large| large.position >= small.position), "{name}");
            other += 1;
        }
    }
    println!("{alike} alike, {other} not");
    assert!(alike > 5000 && other > 20);
}

/// The check of any table of the small edition has the same outcome in the large one.
#[test]
fn the_check_is_the_same() {
    let mut r = Prng::new(4);
    let mut seen = [0; 12];
    for (name, file) in files(0..200) {
        let program = read_in(Small, &file).expect("readable");
        let finished = solve(&program).table;
        for change in 0..8 {
            let mut table = finished.clone();
            for _ in 0..change {
                table[r.below(2_432)] ^= 1 << r.below(64);
            }
            let outcome = check_in(Small, &file, &table);
            assert_eq!(check_in(Large, &file, &widened(&table)), widened_outcome(outcome), "{name}");
            seen[outcome.map_or_else(|r| r.number as usize, |()| 0)] += 1;
        }
    }
    println!("outcomes by number: {seen:?}");
    assert!(seen[0] > 50 && seen[10] > 50 && seen[11] > 50);
}

/// The machine knows nothing of editions: the same walk.
#[test]
fn walks_are_the_same() {
    for (name, file) in files(0..40) {
        let (small, large) = (read_in(Small, &file).expect("readable"), read_in(Large, &file).expect("readable"));
        let walked =
            |program: &Program| walk(program, &solve(program).table, 5, 1000).map(|stats| format!("{stats:?}"));
        assert_eq!(walked(&small), walked(&large), "{name}");
        assert!(walked(&large).is_ok(), "{name}");
    }
}

/// The table of a file whose labels the map changes.
fn relabelled(e: Edition, table: &[u64], map: &Map) -> Vec<u64> {
    let mut changed = vec![0; e.table_words()];
    let new = |l: usize| map[l] as usize;
    for row in 0..e.rows() {
        let to = if row < e.h(0, 0) {
            row
        } else if row < e.p(0) {
            256 + 32 * new((row - 256) / 32) + row % 32
        } else if row < e.t(0) {
            e.p(0) + new(row - e.p(0))
        } else {
            e.t(0) + new(row - e.t(0))
        };
        e.put(&mut changed, to, e.row(table, row).labels().map(|l| map[l as usize]).collect());
    }
    changed
}

/// A file keeps its facts, under their new numbers, where its labels get other numbers.
#[test]
fn labels_may_have_any_numbers() {
    let mut r = Prng::new(6);
    for (name, file) in files(0..200).chain((0..4).map(dense)) {
        let map = any_order(&mut r);
        let answer = |file: &[u8]| -> Answer { solve(&read_in(Large, file).expect(&name)) };
        let (before, after) = (answer(&file), answer(&relabel(&file, &map)));
        assert_eq!(after.facts, before.facts, "{name}");
        assert!(after.table == relabelled(Large, &before.table, &map), "{name}");
        let leaks = |verdict| matches!(verdict, Verdict::Leaks(_));
        assert_eq!(leaks(after.verdict), leaks(before.verdict), "{name}");
    }
}

/// 200 allocation sites, each held under its own label; the first of the forbidden ones that the guest holds is told.
#[test]
fn two_hundred_sites() {
    let mut w = second::generate::writer::Writer::new();
    w.variable(2, 0, 255).variable(3, 0, 255);
    for l in 56..=255 {
        w.label(l, 1, 1).held(if l % 3 == 0 { 2 } else { 3 }, l);
    }
    w.forbid(200).forbid(150).forbid(255).forbid(64);
    let confined = w.clone();
    w.grant(2);
    let mut table = vec![u64::MAX; 35_840];
    let answer = verdict_in(Large, &w.bytes, &mut table).expect("readable");
    assert_eq!(answer.verdict, Verdict::Leaks(150));
    assert_eq!(table, answer.table);
    let held: Row = (56..=255).filter(|l| l % 3 == 0).chain([3]).collect();
    assert_eq!((Large.row(&table, 1), Large.row(&table, 2)), (held, held));
    assert_eq!(check_in(Large, &w.bytes, &table), Err(Refusal { number: 11, position: 150 }));
    let answer = verdict_in(Large, &confined.bytes, &mut table).expect("readable");
    assert_eq!(answer.verdict, Verdict::Confined);
    assert_eq!(check_in(Large, &confined.bytes, &table), Ok(()));
}
