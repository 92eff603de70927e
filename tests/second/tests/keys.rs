//! Readings of keys: a load or store is one for each name that its key is read as. The right reading gives the solver's table. A wrong
//! one is noticed by the tables of generated files, and by walks where it loses names; a wrong list of good keys by what is refused.

mod common;

use common::{short_files, Made};
use second::generate::rekey::rekey;
use second::generate::{damaged_in, edge_mix_in};
use second::keys::{Key, CLASS_ZERO, EVERY_NAME, KEYS_END, NAMES};
use second::machine::walk;
use second::program::{Program, Record};
use second::reader::{read_in, record_starts};
use second::solver::solve;
use second::Edition;

/// A name as a key finds it: its mask by the whole file, and by the records before the key's.
#[derive(Clone, Copy)]
struct Name {
    n: u8,
    whole: Option<u8>,
    before: Option<u8>,
}

/// Whether the key stands for the name.
type Reading = fn(Key, Name) -> bool;
/// Whether a load with the key puts w in its object.
type Wrapping = fn(Key) -> bool;

fn has(mask: Option<u8>, class: u8) -> bool {
    mask.unwrap_or(CLASS_ZERO).checked_shr(class.into()).is_some_and(|classes| classes & 1 == 1)
}

fn right(key: Key, name: Name) -> bool {
    match key {
        Key::Name(n) => name.n == n,
        Key::OfClass(c) => has(name.whole, c),
        Key::OutsideClass(c) => !has(name.whole, c),
    }
}

/// The right reading but for the keys outside a class.
fn with_outside(key: Key, name: Name, outside: fn(u8, Name) -> bool) -> bool {
    match key {
        Key::OutsideClass(c) => outside(c, name),
        other => right(other, name),
    }
}

/// Each with a word on whether it loses names, so that a walk can find what its table lacks.
const WRONG: [(&str, bool, Reading); 11] = [
    ("inside for outside", true, |key, name| with_outside(key, name, |c, name| has(name.whole, c))),
    ("bit c + 1", true, |key, name| with_outside(key, name, |c, name| !has(name.whole, c + 1))),
    ("no name", true, |key, name| with_outside(key, name, |_, _| false)),
    ("every name", false, |key, name| with_outside(key, name, |_, _| true)),
    ("every name outside class 0", false, |key, name| with_outside(key, name, |c, name| c == 0 || !has(name.whole, c))),
    ("no name without a record", true, |key, name| {
        with_outside(key, name, |c, name| name.whole.is_some_and(|mask| !has(Some(mask), c)))
    }),
    ("the last name left out", true, |key, name| {
        with_outside(key, name, |c, name| name.n + 1 < NAMES && !has(name.whole, c))
    }),
    ("earlier masks only", false, |key, name| with_outside(key, name, |c, name| !has(name.before, c))),
    ("later masks only", false, |key, name| {
        with_outside(key, name, |c, name| !has(name.whole.filter(|_| name.before.is_none()), c))
    }),
    ("earlier masks only, of a class", true, |key, name| match key {
        Key::OfClass(c) => has(name.before, c),
        other => right(other, name),
    }),
    ("outside for inside", true, |key, name| match key {
        Key::OfClass(c) if c > 0 => !has(name.whole, c),
        other => right(other, name),
    }),
];

/// For each record that the program keeps, the masks of the name records before it.
fn masks_before(file: &[u8]) -> Vec<[Option<u8>; NAMES as usize]> {
    let mut masks = [None; NAMES as usize];
    let mut all = Vec::new();
    for start in record_starts(file) {
        match file[start] {
            1 => masks[file[start + 1] as usize] = Some(file[start + 2]),
            2..=5 | 9 => {}
            _ => all.push(masks),
        }
    }
    all
}

fn meaning(key: u8) -> Key {
    Key::of(key).expect("a key")
}

/// The program with its loads and stores written name by name as the reading has it, and with a make for the w of a load.
fn read_as(made: &Made, reading: Reading, wraps: Wrapping) -> Program {
    let mut program = made.program();
    let mut records = Vec::new();
    for (&record, before) in program.records.iter().zip(masks_before(&made.file)) {
        let name = |n: u8| Name { n, whole: program.masks[n as usize], before: before[n as usize] };
        let names = |key: u8| (0..NAMES).filter(move |&n| reading(meaning(key), name(n)));
        match record {
            Record::Load { k, y, object, key, w } => {
                if wraps(meaning(key)) {
                    records.push(Record::Make { k, y: object, l: w });
                }
                records.extend(names(key).map(|key| Record::Load { k, y, object, key, w }));
            }
            Record::Store { k, object, key, value } => {
                records.extend(names(key).map(|key| Record::Store { k, object, key, value }));
            }
            other => records.push(other),
        }
    }
    program.records = records;
    program
}

/// The first file whose table the reading gets wrong.
fn wrong_table(edition: Edition, reading: Reading, wraps: Wrapping) -> Option<String> {
    let wrong = |made: &Made| solve(&read_as(made, reading, wraps)).table != solve(&made.program()).table;
    short_files(edition, 300).find(wrong).map(|made| made.name)
}

/// The first file with a walk that leaves the table of the reading.
fn wrong_walk(edition: Edition, reading: Reading) -> Option<String> {
    let leaves = |made: &Made| {
        let table = solve(&read_as(made, reading, |_| true)).table;
        walk(&made.program(), &table, made.seed, 2000).is_err()
    };
    short_files(edition, 300).find(leaves).map(|made| made.name)
}

#[test]
fn a_key_stands_for_its_names() {
    for edition in Edition::BOTH {
        for made in short_files(edition, 60) {
            assert_eq!(solve(&read_as(&made, right, |_| true)).table, solve(&made.program()).table, "{}", made.name);
        }
    }
}

#[test]
fn every_wrong_reading_is_noticed() {
    for (edition, (title, loses, reading)) in Edition::BOTH.into_iter().flat_map(|e| WRONG.map(|wrong| (e, wrong))) {
        let table = wrong_table(edition, reading, |_| true);
        let walk = loses.then(|| wrong_walk(edition, reading));
        println!("{edition:?} {title}: {table:?}, {walk:?}");
        assert!(table.is_some() && walk != Some(None), "{edition:?} {title}");
    }
}

#[test]
fn a_wrapper_forgotten_under_the_key_of_no_name_is_noticed() {
    for edition in Edition::BOTH {
        let table = wrong_table(edition, right, |key| key != Key::OutsideClass(0));
        println!("{edition:?}: {table:?}");
        assert!(table.is_some());
    }
}

/// A reader whose list of good keys is wrong for one byte acts on that byte as the right one does on some other.
#[test]
fn every_wrong_border_of_good_keys_is_noticed() {
    let borders =
        [(31, true), (32, false), (127, false), (128, true), (135, true), (136, true), (143, true), (144, false)];
    for (edition, (border, good)) in Edition::BOTH.into_iter().flat_map(|e| borders.map(|border| (e, border))) {
        let other = if good { KEYS_END } else { EVERY_NAME };
        let taken = |key| if key == border { other } else { key };
        let wrong = |file: &[u8]| read_in(edition, file).err() != read_in(edition, &rekey(file, taken)).err();
        for make in [edge_mix_in, damaged_in] {
            let found = (0..6000).map(|seed| make(edition, seed)).find(|(_, file)| wrong(file));
            let name = found.map(|(name, _)| name);
            println!("{edition:?} {border}: {name:?}");
            assert!(name.is_some(), "{edition:?} {border}");
        }
    }
}
