//! Profiles (request 04): a class with every name changes nothing, any other takes facts away and adds none, wherever the record stands; the machine's guest
//! is held likewise.

use second::check::{check_program, one_use};
use second::generate::profiles::{anywhere, profile, with_every_name, without_profile};
use second::generate::tables::tables_about;
use second::generate::top_returns::records;
use second::generate::writer::Writer;
use second::generate::{profiles_in, Named};
use second::keys::{NAMES, PROTOTYPE};
use second::machine::{walk, witnessed};
use second::prng::Prng;
use second::program::{Program, Record, GUEST, LONGEST_FILE};
use second::reader::read_in;
use second::row::Row;
use second::solver::solve;
use second::Edition;

fn program(edition: Edition, file: &[u8]) -> Program {
    read_in(edition, file).expect("readable")
}

/// Files with a profile at their beginning, at their end or anywhere, fewer of the large edition.
fn files() -> impl Iterator<Item = (Edition, Named)> {
    let both = [(Edition::Small, 1200), (Edition::Large, 300)];
    both.into_iter().flat_map(|(e, seeds)| (0..seeds).map(move |seed| (e, profiles_in(e, seed))))
}

/// The same answer, the same check of any table, and the same walk step by step.
#[test]
fn a_class_with_every_name_changes_nothing() {
    let mut r = Prng::new(1);
    let (mut count, mut walks) = ([0, 0], [0, 0]);
    for (e, (name, file)) in files() {
        let [file, held] = with_every_name(&mut r, &file);
        if held.len() > LONGEST_FILE {
            continue;
        }
        let (held, free) = (program(e, &held), program(e, &file));
        let answer = solve(&free);
        assert_eq!(solve(&held), answer, "{name}");
        count[e as usize] += 1;
        if file.len() < 3_000 && count[e as usize] % 4 == 0 {
            for table in tables_about(e, &mut r, &answer.table) {
                assert!(one_use(&held, &table) == one_use(&free, &table), "{name}");
                assert_eq!(check_program(&held, &table), check_program(&free, &table), "{name}");
            }
            let walked = |program: &Program| walk(program, &answer.table, 3, 600);
            assert_eq!(walked(&held), walked(&free), "{name}");
            walks[e as usize] += 1;
        }
    }
    println!("{count:?} files, {walks:?} walks");
    assert!(count[0] > 1000 && count[1] > 200 && walks[0] > 100 && walks[1] > 20);
}

fn within(fewer: &[Row], more: &[Row]) -> bool {
    fewer.iter().zip(more).all(|(a, b)| (*a & !*b).is_empty())
}

/// Also by one use on any table; so the table of the file without the profile is closed for the file with it.
#[test]
fn a_held_guest_has_no_fact_more() {
    let mut r = Prng::new(2);
    let (mut count, mut fewer) = ([0, 0], [0, 0]);
    for (e, (name, file)) in files() {
        let (held, free) = (program(e, &file), program(e, &without_profile(&file)));
        let (with, without) = (solve(&held), solve(&free));
        let rows = |table: &[u64]| -> Vec<Row> { (0..e.rows()).map(|row| e.row(table, row)).collect() };
        assert!(within(&rows(&with.table), &rows(&without.table)), "{name}");
        assert_ne!(check_program(&held, &without.table).err().map(|r| r.number), Some(10), "{name}");
        count[e as usize] += 1;
        fewer[e as usize] += (with.facts < without.facts) as usize;
        if count[e as usize] % 4 == 0 {
            for table in tables_about(e, &mut r, &with.table) {
                assert!(within(&one_use(&held, &table), &one_use(&free, &table)), "{name}");
            }
        }
    }
    println!("{count:?} files, {fewer:?} with fewer facts than without the profile");
    assert!(fewer[0] > 800 && fewer[1] > 200);
}

#[test]
fn a_profile_may_stand_anywhere() {
    let mut r = Prng::new(3);
    let (mut seen, mut held) = (0, 0);
    for (e, (name, file)) in files().step_by(3) {
        seen += 1;
        let Some(record) = records(&file).find(|record| profile(record).is_some()) else { continue };
        held += 1;
        let rest = without_profile(&file);
        for _ in 0..3 {
            assert_eq!(program(e, &anywhere(&mut r, &rest, record)), program(e, &file), "{name}");
        }
    }
    println!("{held} of {seen} files have a profile");
    assert!(10 * held > 9 * seen);
}

/// The program with no other statement of the guest than its make function.
fn only_make_function(mut program: Program) -> Program {
    program.guest.retain(|record| matches!(record, Record::Make { .. } | Record::MakeFunction { .. }));
    program
}

/// Name 3 with and without class 1, before and after the profile.
fn about_name_three() -> [(Vec<u8>, bool); 5] {
    [
        (vec![9, 1], false),
        (vec![9, 1, 1, 3, 3], true),
        (vec![1, 3, 3, 9, 1], true),
        (vec![1, 3, 253, 9, 1, 1, 4, 3], false),
        (vec![9, 0, 1, 3, 253], true),
    ]
}

/// The guest's make function by itself: by one use of nothing and in the machine a function in the bag, and the prototype property only where the class
/// has its name.
#[test]
fn what_make_function_gives() {
    for (e, (file, has_name)) in Edition::BOTH.into_iter().flat_map(|e| about_name_three().map(|case| (e, case))) {
        let alone = only_make_function(program(e, &file));
        let used = e.table(&one_use(&alone, &vec![0; e.table_words()]));
        let seen = witnessed(&alone, &solve(&alone).table, 0..5, 100).expect("within the table");
        let property = if has_name { Row::of(GUEST) } else { Row::EMPTY };
        for facts in [used, seen] {
            assert_eq!(e.row(&facts, e.s(1)), Row::of(GUEST), "{file:?}");
            for n in 0..NAMES {
                let expected = if n == PROTOTYPE { property } else { Row::EMPTY };
                assert_eq!(e.row(&facts, e.h(GUEST, n)), expected, "{file:?} {n}");
            }
        }
    }
}

/// The guest has object 6, which holds the forbidden 5 under name 4 and 7 under name 9, and function 8 with prototype property 10; the host reads the
/// prototype property of what the guest gives. The guest is held to names 9 and 11.
fn school(held: bool) -> Vec<u8> {
    let mut w = Writer::new();
    w.name(9, 3).label(5, 1, 0).forbid(5).label(6, 1, 0).label(7, 1, 0).label(8, 2, 0).function(8, 0, [0; 6]);
    w.label(10, 1, 0).label(12, 1, 0).variable(2, 0, 255).variable(3, 0, 255).variable(4, 0, 255).variable(5, 0, 255);
    if held {
        w.profile(1);
    }
    w.held(2, 6).property(6, 4, 5).property(6, 9, 7).make_function(0, 3, 8, 10).grant(2).grant(3);
    w.copy(0, 4, 2).load(0, 5, 4, PROTOTYPE, 12).name(11, 3);
    w.bytes
}

/// A free guest comes to hold 5, stores under every name, and its functions have prototype properties. A held one has none of that, finds 7, stores
/// under names 9 and 11, and still takes the prototype of function 8 for what it makes by new. A walk of the free guest leaves the held one's table.
#[test]
fn walks_of_a_held_guest_and_of_a_free_one() {
    for e in Edition::BOTH {
        let [held, free] = [true, false].map(|held| program(e, &school(held)));
        let facts = |program: &Program| {
            let table = solve(program).table;
            let seen = witnessed(program, &table, 0..30, 3000).expect("within the table");
            [table, seen]
        };
        for table in facts(&free) {
            assert!(e.row(&table, e.s(1)).has(5) && e.row(&table, e.s(5)).has(3), "{e:?}");
            assert!((0..NAMES).all(|n| e.row(&table, e.h(3, n)).has(3)), "{e:?}");
        }
        for table in facts(&held) {
            let guest = e.row(&table, e.s(1));
            assert_eq!(guest, [3, 6, 7, 8].into_iter().collect(), "{e:?}");
            assert!(e.row(&table, e.p(3)).has(10) && !e.row(&table, e.s(5)).has(3), "{e:?}");
            for n in 0..NAMES {
                let stored = if [9, 11].contains(&n) { guest } else { Row::EMPTY };
                assert_eq!(e.row(&table, e.h(3, n)), stored, "{e:?} {n}");
            }
        }
        let table = solve(&held).table;
        assert!((0..5).all(|seed| walk(&free, &table, seed, 2000).is_err()));
    }
}
