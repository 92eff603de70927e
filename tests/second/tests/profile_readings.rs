//! Readings of a profile (request 04). The right one, with the names of the class taken from the bytes of the file, gives the solver's table. Wrong ones are
//! noticed by the tables of generated files and by walks, or by what is refused; two give every file the right table, and are noticed by what make function
//! does alone.

mod common;
#[path = "common/readers.rs"]
mod readers;

use common::{short_files, Made};
use readers::all_are_noticed;
use second::check::one_use;
use second::generate::profiles::profile;
use second::generate::top_returns::records;
use second::keys::{Key, CLASSES, CLASS_ZERO, EVERY_NAME, KEY_OF_CLASS, KEY_OUTSIDE_CLASS, NAMES, NO_NAME, PROTOTYPE};
use second::machine::{walk, witnessed};
use second::program::{Program, Record, BAG, GUEST};
use second::reader::read_in;
use second::solver::solve;
use second::Edition;

/// What a wrong reading makes of a file with a profile, given its bytes and the right program.
type Reading = fn(&[u8], Program) -> Program;

fn class(program: &Program) -> u8 {
    program.profile.expect("a profile")
}

/// The program with each statement of the guest replaced by others.
fn guest(mut program: Program, change: impl Fn(&Program, Record) -> Vec<Record>) -> Program {
    program.guest = program.guest.iter().flat_map(|&record| change(&program, record)).collect();
    program
}

fn with_key(record: Record, key: u8) -> Record {
    match record {
        Record::Load { k, y, object, w, .. } => Record::Load { k, y, object, key, w },
        Record::Store { k, object, value, .. } => Record::Store { k, object, key, value },
        other => other,
    }
}

/// The statement once for each name; such as have no key stay.
fn for_names(record: Record, names: impl Iterator<Item = u8>) -> Vec<Record> {
    match record {
        Record::Load { .. } | Record::Store { .. } => names.map(|n| with_key(record, n)).collect(),
        other => vec![other],
    }
}

/// Masks of the records before the profile, and of those behind it.
fn masks_about(file: &[u8]) -> [[u8; NAMES as usize]; 2] {
    let mut masks = [[CLASS_ZERO; NAMES as usize]; 2];
    let mut behind = 0;
    for record in records(file) {
        match *record {
            [1, n, mask] => masks[behind][n as usize] = mask,
            _ if profile(record).is_some() => behind = 1,
            _ => {}
        }
    }
    masks
}

/// The guest by the masks on one side of its profile, or on both.
fn by_masks(file: &[u8], program: Program, sides: &[usize]) -> Program {
    let masks = masks_about(file);
    guest(program, |program, record| {
        let has = |&n: &u8| sides.iter().any(|&side| masks[side][n as usize] >> class(program) & 1 == 1);
        match record {
            MAKE | MAKE_FUNCTION if has(&PROTOTYPE) => vec![MAKE_FUNCTION],
            MAKE | MAKE_FUNCTION => vec![MAKE],
            other => for_names(other, (0..NAMES).filter(has)),
        }
    })
}

#[test]
fn a_profile_has_the_names_of_its_class() {
    for edition in Edition::BOTH {
        let mut count = 0;
        for made in held_files(edition).take(300) {
            let named = by_masks(&made.file, made.program(), &[0, 1]);
            assert_eq!(named.guest[0], made.program().guest[0], "{}", made.name);
            assert_eq!(solve(&named), solve(&made.program()), "{}", made.name);
            count += 1;
        }
        println!("{edition:?}: {count} files");
        assert_eq!(count, 300);
    }
}

/// Host statements whose key is chosen have only the names that the guest has too.
fn host_held(mut program: Program, chosen: fn(Key) -> bool) -> Program {
    let held = |key: u8| Key::of(key).is_some_and(chosen);
    let both = |key: u8| program.names(key).filter(|&n| program.key_has(KEY_OF_CLASS + class(&program), n));
    let records = program.records.iter().flat_map(|&record| match record {
        Record::Load { k, object, key, w, .. } if held(key) => {
            [vec![Record::Make { k, y: object, l: w }], for_names(record, both(key))].concat()
        }
        Record::Store { key, .. } if held(key) => for_names(record, both(key)),
        other => vec![other],
    });
    program.records = records.collect();
    program
}

const MAKE: Record = Record::Make { k: GUEST, y: BAG, l: GUEST };
const MAKE_FUNCTION: Record = Record::MakeFunction { k: GUEST, y: BAG, l: GUEST, q: GUEST };

fn is_make(record: Record) -> bool {
    record == MAKE || record == MAKE_FUNCTION
}

const WRONG: [(&str, Reading); 13] = [
    ("masks before the profile", |file, p| by_masks(file, p, &[0])),
    ("masks behind the profile", |file, p| by_masks(file, p, &[1])),
    ("load not held", |_, p| {
        guest(p, |_, record| match record {
            Record::Load { .. } => vec![with_key(record, EVERY_NAME)],
            other => vec![other],
        })
    }),
    ("store not held", |_, p| {
        guest(p, |_, record| match record {
            Record::Store { .. } => vec![with_key(record, EVERY_NAME)],
            other => vec![other],
        })
    }),
    ("class c + 1", |_, p| {
        guest(p, |program, record| {
            let next = class(program) + 1;
            vec![with_key(record, if next < CLASSES { KEY_OF_CLASS + next } else { NO_NAME })]
        })
    }),
    ("outside the class", |_, p| {
        guest(p, |program, record| vec![with_key(record, KEY_OUTSIDE_CLASS + class(program))])
    }),
    ("name c", |_, p| guest(p, |program, record| vec![with_key(record, class(program))])),
    ("no profile", |_, mut p| {
        p.profile = None;
        p.guest = p.guest_statements();
        p
    }),
    ("host keys of a class held too", |_, p| host_held(p, |key| matches!(key, Key::OfClass(_)))),
    ("host keys of a name held too", |_, p| host_held(p, |key| matches!(key, Key::Name(_)))),
    ("no prototype property of host functions either", |_, mut p| {
        if p.guest.contains(&MAKE) {
            p.records.iter_mut().for_each(|record| {
                if let Record::MakeFunction { k, y, l, .. } = *record {
                    *record = Record::Make { k, y, l };
                }
            });
        }
        p
    }),
    ("prototype property always written", |_, p| {
        guest(p, |_, record| vec![if record == MAKE { MAKE_FUNCTION } else { record }])
    }),
    ("new does not look up name 3", |_, p| {
        guest(p, |_, record| match record {
            Record::New { k, y, callee, t, l, args } => {
                vec![Record::Make { k, y: t, l }, Record::Call { k, y, callee, this: t, args }]
            }
            other => vec![other],
        })
    }),
];

fn held_files(edition: Edition) -> impl Iterator<Item = Made> {
    short_files(edition, 300).filter(|made| made.program().profile.is_some())
}

/// By tables, and by a walk of the right machine that leaves the wrong table or of the wrong machine that leaves the right table.
#[test]
fn every_wrong_reading_is_noticed() {
    for (edition, (title, reading)) in Edition::BOTH.into_iter().flat_map(|e| WRONG.map(|wrong| (e, wrong))) {
        let table = |program: &Program| solve(program).table;
        let read_wrongly = |made: &Made| reading(&made.file, made.program());
        let other = |made: &Made| table(&read_wrongly(made)) != table(&made.program());
        let leaves = |made: &Made| {
            let (right, wrong) = (made.program(), read_wrongly(made));
            let outside = |walked: &Program, solved: &Program| walk(walked, &table(solved), made.seed, 2000).is_err();
            outside(&right, &wrong) || outside(&wrong, &right)
        };
        let by_table = held_files(edition).find(other).map(|made| made.name);
        let by_walk = held_files(edition).find(leaves).map(|made| made.name);
        println!("{edition:?} {title}: {by_table:?}, {by_walk:?}");
        assert!(by_table.is_some() && by_walk.is_some(), "{edition:?} {title}");
    }
}

/// The rules say these facts twice: a store under name 3 puts 3 in H(3,3), and load and new put 3 in S(1). In the machine a guest that gets no function has
/// nothing to begin with.
#[test]
fn readings_that_tables_do_not_tell() {
    let never_written: Reading = |_, p| guest(p, |_, record| vec![if is_make(record) { MAKE } else { record }]);
    let nothing_made: Reading = |_, p| guest(p, |_, record| if is_make(record) { Vec::new() } else { vec![record] });
    for edition in Edition::BOTH {
        for made in held_files(edition).take(100) {
            for reading in [never_written, nothing_made] {
                assert_eq!(solve(&reading(&made.file, made.program())), solve(&made.program()), "{}", made.name);
            }
        }
        // Make function and call alone: one use of nothing, and what walks see.
        let alone = |file: &[u8], reading: Reading| -> [Vec<u64>; 2] {
            let mut program = reading(file, read_in(edition, file).expect("readable"));
            program.guest.retain(|&record| is_make(record) || matches!(record, Record::Call { .. }));
            let used = edition.table(&one_use(&program, &vec![0; edition.table_words()]));
            [used, witnessed(&program, &solve(&program).table, 0..5, 200).expect("within the table")]
        };
        let right: Reading = |_, p| p;
        let (with_name, without): (&[u8], &[u8]) = (&[9, 1, 1, 3, 3], &[9, 1]);
        for (file, wrong) in [(with_name, never_written), (with_name, nothing_made), (without, nothing_made)] {
            let (told, expected) = (alone(file, wrong), alone(file, right));
            assert!(told[0] != expected[0] && told[1] != expected[1], "{edition:?} {file:?}");
        }
    }
}

/// How a wrong reader takes a profile, given the class of one before it: as the right one takes these two bytes.
type Taken = fn(u8, Option<u8>) -> [u8; 2];

/// A record that says nothing to a reader.
const NOTHING: [u8; 2] = [3, 3];

const WRONG_READERS: [(&str, Taken); 8] = [
    ("a repeat read", |c, before| if before.is_some() && c < CLASSES { NOTHING } else { [9, c] }),
    ("a repeat of the same class read", |c, before| if before == Some(c) { NOTHING } else { [9, c] }),
    ("a repeat before a bad class", |c, before| if before.is_some() { [9, 0] } else { [9, c] }),
    ("class 8 read", |c, _| if c == CLASSES { [9, 0] } else { [9, c] }),
    ("class 7 refused", |c, _| if c + 1 == CLASSES { [9, CLASSES] } else { [9, c] }),
    ("class 0 refused", |c, _| if c == 0 { [9, CLASSES] } else { [9, c] }),
    ("every class read", |c, _| [9, c % CLASSES]),
    ("an unknown kind", |c, _| [0, c]),
];

fn taken(file: &[u8], take: Taken) -> Vec<u8> {
    let mut before = None;
    let pieces = records(file).map(|record| match profile(record) {
        Some(c) => {
            let bytes = take(c, before);
            before = before.or(Some(c));
            bytes.to_vec()
        }
        None => record.to_vec(),
    });
    pieces.flatten().collect()
}

#[test]
fn every_wrong_reader_is_noticed() {
    all_are_noticed(&WRONG_READERS, taken);
}
