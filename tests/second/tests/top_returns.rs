//! Returns at the top level (request 02) have no effect: a file with them has the same verdict, count and table as without, any table the
//! same check, and the machine's step leaves everything as it is. A wrong reading of them is noticed by the tables of generated files, by
//! walks or by what is refused.

mod common;
#[path = "common/readers.rs"]
mod readers;

use common::{short_files, Made};
use readers::all_are_noticed;
use second::check::{check_in, check_program, one_use};
use second::generate::tables::tables_about;
use second::generate::top_returns::{records, top_return, top_returns_in, with_top_returns, without_top_returns};
use second::generate::{damaged_in, edge_mix_in, Named};
use second::machine::{idle, walk};
use second::prng::Prng;
use second::program::{Program, Record, BAG, GUEST, LONGEST_FILE};
use second::reader::{read_in, record_starts};
use second::solver::solve;
use second::Edition;

fn program(edition: Edition, file: &[u8]) -> Program {
    read_in(edition, file).expect("readable")
}

/// Files with returns at the top level at their end, at some places and at all, fewer of the large edition.
fn files() -> impl Iterator<Item = (Edition, Named)> {
    let both = [(Edition::Small, 600), (Edition::Large, 160)];
    both.into_iter().flat_map(|(e, seeds)| (0..seeds).map(move |seed| (e, top_returns_in(e, seed))))
}

#[test]
fn a_file_has_the_same_answer_with_and_without() {
    let (mut count, mut returns) = ([0, 0], [0, 0]);
    for (e, (name, file)) in files() {
        let rest = without_top_returns(&file);
        assert_eq!(solve(&program(e, &file)), solve(&program(e, &rest)), "{name}");
        count[e as usize] += 1;
        returns[e as usize] += (file.len() - rest.len()) / 3;
    }
    println!("{count:?} files with {returns:?} returns at the top level");
    assert!(returns.iter().all(|&returns| returns > 100_000));
}

#[test]
fn any_table_has_the_same_check_with_and_without() {
    let mut r = Prng::new(2);
    let mut seen = [0; 12];
    for (e, (name, file)) in files().step_by(3) {
        let rest = without_top_returns(&file);
        let (with, without) = (program(e, &file), program(e, &rest));
        for table in tables_about(e, &mut r, &solve(&without).table) {
            assert!(one_use(&with, &table) == one_use(&without, &table), "{name}");
            let outcome = check_in(e, &file, &table);
            assert_eq!(outcome, check_program(&without, &table), "{name}");
            seen[outcome.map_or_else(|r| r.number as usize, |()| 0)] += 1;
        }
    }
    println!("outcomes by number: {seen:?}");
    assert!(seen[0] > 100 && seen[10] > 100 && seen[11] > 100);
}

/// A refused file is refused for the same record, by the same number, with returns at the top level before it.
#[test]
fn refusals_are_the_same_with_and_without() {
    let mut r = Prng::new(3);
    let mut seen = [0; 10];
    for (e, seed) in Edition::BOTH.into_iter().flat_map(|e| (0..3000).map(move |seed| (e, seed))) {
        for (name, file) in [damaged_in(e, seed), edge_mix_in(e, seed)] {
            let more = with_top_returns(&file, |place, _| place < file.len() && r.chance(1, 20));
            match (read_in(e, &file), read_in(e, &more)) {
                (Ok(before), Ok(after)) => assert_eq!(solve(&before), solve(&after), "{name}"),
                (Err(before), Err(after)) => {
                    assert_eq!(before.number, after.number, "{name}");
                    let (left, left_more) = (&file[..before.position], &more[..after.position]);
                    assert_eq!(without_top_returns(left), without_top_returns(left_more), "{name}");
                    seen[before.number as usize] += 1;
                }
                (before, after) => panic!("{name}: {:?}, {:?}", before.err(), after.err()),
            }
        }
    }
    println!("refused by number {seen:?}");
    assert!((1..8).all(|number| seen[number] > 10));
}

/// The values returned at the top level, each once.
fn exports(program: &Program) -> Vec<u8> {
    let values = program.records.iter().filter_map(|record| match *record {
        Record::Return { k: 0, value } => Some(value),
        _ => None,
    });
    let mut values: Vec<u8> = values.collect();
    values.sort();
    values.dedup();
    values
}

#[test]
fn a_step_of_the_machine_leaves_everything_as_it_is() {
    let (mut walks, mut returns) = (0, 0);
    for (e, (name, file)) in files().filter(|(_, (_, file))| file.len() < 10_000).step_by(3) {
        let with = program(e, &file);
        let statements: Vec<Record> = exports(&with).iter().map(|&value| Record::Return { k: 0, value }).collect();
        let table = solve(&with).table;
        for seed in 0..2 {
            idle(&with, &table, &statements, seed, 600).unwrap_or_else(|e| panic!("{name}: {e}"));
            walks += 1;
        }
        returns += statements.len();
    }
    println!("{walks} walks, {returns} variables");
    assert!(walks > 100);
}

/// The records that a wrong reading has in the place of the returns at the top level.
type Reading = fn(&Program) -> Vec<Record>;

/// A record for each export.
fn each(program: &Program, record: fn(u8) -> Record) -> Vec<Record> {
    exports(program).into_iter().map(record).collect()
}

/// Copies of the exports to the results of the calls, of host and guest, that are chosen by their record and callee.
fn to_results(program: &Program, chosen: impl Fn(Record, u8) -> bool) -> Vec<Record> {
    let exports = exports(program);
    let copies = program.all_records().flat_map(|record| match record {
        Record::Call { k, y, callee, .. } | Record::New { k, y, callee, .. } if chosen(record, callee) => {
            exports.iter().map(|&source| Record::Copy { k, y, source }).collect()
        }
        _ => Vec::new(),
    });
    copies.collect()
}

/// The same for calls whose callee holds label 0 by the table that this leads to.
fn to_callers_of_the_global_object(program: &Program) -> Vec<Record> {
    let e = program.edition;
    let mut copies = Vec::new();
    loop {
        let table = solve(&with_records(program, &copies)).table;
        let more = to_results(program, |_, callee| e.row(&table, e.s(callee)).has(0));
        if more == copies {
            return copies;
        }
        copies = more;
    }
}

fn with_records(program: &Program, more: &[Record]) -> Program {
    let mut program = program.clone();
    program.records.extend(more);
    program
}

const WRONG: [(&str, Reading); 8] = [
    ("to every call", |p| to_results(p, |_, _| true)),
    ("to every host call", |p| to_results(p, |_, callee| callee != BAG)),
    ("to calls of label 0", to_callers_of_the_global_object),
    ("to every new", |p| to_results(p, |record, _| matches!(record, Record::New { .. }))),
    ("from every function", |p| {
        let functions = p.declared().filter_map(|(f, _)| p.function(f).map(|_| f));
        functions.flat_map(|k| exports(p).into_iter().map(move |value| Record::Return { k, value })).collect()
    }),
    ("from the guest", |p| each(p, |value| Record::Return { k: GUEST, value })),
    ("to the guest", |p| each(p, |source| Record::Copy { k: 0, y: BAG, source })),
    ("thrown", |p| each(p, |value| Record::Throw { k: 0, value })),
];

/// The program with the records of the reading.
fn read_as(made: &Made, reading: Reading) -> Program {
    let program = made.program();
    with_records(&program, &reading(&program))
}

/// Generated files tell every wrong reading by their tables, and by a walk of the wrong machine that leaves the right table.
#[test]
fn every_wrong_reading_is_noticed() {
    for (edition, (title, reading)) in Edition::BOTH.into_iter().flat_map(|e| WRONG.map(|wrong| (e, wrong))) {
        let right = |made: &Made| solve(&made.program()).table;
        let other = |made: &Made| solve(&read_as(made, reading)).table != right(made);
        let leaves = |made: &Made| walk(&read_as(made, reading), &right(made), made.seed, 2000).is_err();
        let table = short_files(edition, 300).find(other).map(|made| made.name);
        let walk = short_files(edition, 300).find(leaves).map(|made| made.name);
        println!("{edition:?} {title}: {table:?}, {walk:?}");
        assert!(table.is_some() && walk.is_some(), "{edition:?} {title}");
    }
}

/// A wrong step in the place of the return alters the state of some walk.
#[test]
fn every_wrong_step_is_noticed() {
    let wrong: [fn(u8) -> Record; 3] = [
        |source| Record::Copy { k: 0, y: BAG, source },
        |value| Record::Throw { k: 0, value },
        |object| Record::Prim { k: 0, object },
    ];
    for (edition, step) in Edition::BOTH.into_iter().flat_map(|e| wrong.map(|step| (e, step))) {
        let alters = |made: &Made| {
            let program = made.program();
            // A table of all facts: only the state tells.
            let full = vec![u64::MAX; edition.table_words()];
            idle(&program, &full, &each(&program, step), made.seed, 600).is_err()
        };
        let found = short_files(edition, 100).find(alters).map(|made| made.name);
        println!("{edition:?} {:?}: {found:?}", step(2));
        assert!(found.is_some());
    }
}

/// How a wrong reader takes the scope and the value of a return, given the labels declared before: as the right one takes others.
type Taken = fn(u8, u8, &[u8]) -> (u8, u8);

const WRONG_READERS: [(&str, Taken); 6] = [
    ("scope 0 refused", |k, value, _| (if k == 0 { 1 } else { k }, value)),
    ("no value judged in scope 0", |k, value, _| (k, if k == 0 { 0 } else { value })),
    ("no value but 0 in scope 0", |k, value, _| (k, if k == 0 && value != 0 { BAG } else { value })),
    ("scope 3 read", |k, value, _| (if k == GUEST { 0 } else { k }, value)),
    ("any declared label read", |k, value, declared| (if declared.contains(&k) { 0 } else { k }, value)),
    ("the bag read in scope 0", |k, value, _| (k, if k == 0 && value == BAG { 0 } else { value })),
];

fn taken(file: &[u8], take: Taken) -> Vec<u8> {
    let mut changed = file.to_vec();
    let mut declared: Vec<u8> = (0..5).collect();
    for start in record_starts(file) {
        match file[start..] {
            [2, l, ..] => declared.push(l),
            [23, k, value, ..] => (changed[start + 1], changed[start + 2]) = take(k, value, &declared),
            _ => {}
        }
    }
    changed
}

#[test]
fn every_wrong_reader_is_noticed() {
    all_are_noticed(&WRONG_READERS, taken);
}

/// At the end stands everything the host has; whatever is put in comes out again, and no more is put in than there is room for.
#[test]
fn put_in_and_taken_out() {
    for (e, (name, file)) in files() {
        let with = program(e, &file);
        let variables = with.variables.iter().flatten().count();
        assert!(file.len() <= LONGEST_FILE, "{name}");
        if name.contains("-end-") && file.len() + 3 <= LONGEST_FILE {
            assert_eq!(exports(&with).len(), 1 + variables, "{name}");
        }
        let rest = without_top_returns(&file);
        assert!(records(&rest).all(|record| top_return(record).is_none()), "{name}");
        let full = with_top_returns(&rest, |_, _| true);
        assert!(
            full.len() <= LONGEST_FILE && (full.len() > rest.len() + 3 * variables || rest.len() > 30_000),
            "{name}"
        );
        assert_eq!(without_top_returns(&full), rest, "{name}");
    }
}
