//! Solver and check against one another in both editions: acceptance, refusals 10 and 11, leastness, and what the check passes over.

use second::check::{check, check_in, check_program, one_use};
use second::generate::{dense_in, random_in, rounds_in, spread_in, structured_in, Named};
use second::keys::{CLASSES, EVERY_NAME, KEY_OF_CLASS, KEY_OUTSIDE_CLASS};
use second::prng::Prng;
use second::program::{Program, Record};
use second::reader::{read_in, Refusal};
use second::row::Row;
use second::solver::{solve, Verdict};
use second::Edition;
use std::ops::Range;

fn files(edition: Edition, seeds: Range<u64>) -> impl Iterator<Item = Named> {
    let makers = [random_in, structured_in, rounds_in, spread_in];
    seeds.flat_map(move |seed| makers.map(|make| make(edition, seed)))
}

/// Generated files of both editions as programs, fewer of the large one.
fn programs(small: Range<u64>, large: Range<u64>) -> impl Iterator<Item = (String, Vec<u8>, Program)> {
    let both = [(Edition::Small, small), (Edition::Large, large)];
    both.into_iter().flat_map(|(edition, seeds)| {
        files(edition, seeds).map(move |(name, file)| {
            let program = read_in(edition, &file).expect("readable");
            (name, file, program)
        })
    })
}

/// The table with what one use of the rules adds.
fn enlarged(program: &Program, table: &[u64]) -> Vec<u64> {
    let concluded = program.edition.table(&one_use(program, table));
    concluded.iter().zip(table).map(|(a, b)| a | b).collect()
}

/// The least table above one by rounds: one use after another.
fn by_rounds(program: &Program, mut table: Vec<u64>) -> (Vec<u64>, usize) {
    for round in 0.. {
        let more = enlarged(program, &table);
        if more == table {
            return (table, round);
        }
        table = more;
    }
    unreachable!()
}

fn empty(program: &Program) -> Vec<u64> {
    vec![0; program.edition.table_words()]
}

/// Some row of the table that is not empty, and some label in it.
fn some_fact(edition: Edition, r: &mut Prng, table: &[u64]) -> (usize, u8) {
    let rows: Vec<usize> = (0..edition.rows()).filter(|&row| !edition.row(table, row).is_empty()).collect();
    let row = r.pick(&rows);
    let labels: Vec<u8> = edition.row(table, row).labels().collect();
    (row, r.pick(&labels))
}

#[test]
fn the_check_agrees_with_the_solver() {
    for (name, _, program) in programs(0..600, 0..200) {
        let answer = solve(&program);
        let expected = match answer.verdict {
            Verdict::Confined => Ok(()),
            Verdict::Leaks(l) => Err(Refusal { number: 11, position: l as usize }),
        };
        assert_eq!(check_program(&program, &answer.table), expected, "{name}");
        assert!(program.edition.row(&answer.table, 0).is_empty());
    }
}

#[test]
fn the_solver_finds_the_least_table() {
    let mut most = [(0, String::new()), (0, String::new())];
    for (name, _, program) in programs(0..300, 0..100).filter(|(_, file, _)| file.len() < 9000) {
        let (table, rounds) = by_rounds(&program, empty(&program));
        assert_eq!(solve(&program).table, table, "{name}");
        let most = &mut most[program.edition as usize];
        *most = most.clone().max((rounds, name));
    }
    println!("most rounds: {most:?}");
    assert!(most[0].0 > 100 && most[1].0 > 200);
}

/// Files of full size: dense ones, and random ones of the large edition with 200 labels or more.
#[test]
fn the_solver_finds_the_least_table_of_full_files() {
    let dense =
        Edition::BOTH.into_iter().flat_map(|edition| (0..6).map(move |seed| (edition, dense_in(edition, seed))));
    let random = (0..400).map(|seed| (Edition::Large, random_in(Edition::Large, seed)));
    let random = random.filter(|(_, (_, file))| {
        file.len() == 32_768 && read_in(Edition::Large, file).is_ok_and(|program| program.declared().count() >= 200)
    });
    for (edition, (name, file)) in dense.chain(random.take(5)) {
        let program = read_in(edition, &file).expect("readable");
        let started = std::time::Instant::now();
        let answer = solve(&program);
        let solved = started.elapsed();
        let (table, rounds) = by_rounds(&program, empty(&program));
        println!("{name}: {} facts in {solved:?}; {rounds} rounds in {:?}", answer.facts, started.elapsed() - solved);
        assert_eq!(answer.table, table, "{name}");
    }
}

/// Many more files of every size; run with --ignored.
#[test]
#[ignore]
fn the_solver_finds_the_least_table_of_many() {
    for (name, _, program) in programs(1000..6000, 1000..2000) {
        assert_eq!(solve(&program).table, by_rounds(&program, empty(&program)).0, "{name}");
    }
    for edition in Edition::BOTH {
        for (name, file) in (100..140).map(|seed| dense_in(edition, seed)) {
            let program = read_in(edition, &file).expect("readable");
            assert_eq!(solve(&program).table, by_rounds(&program, empty(&program)).0, "{name}");
        }
    }
}

/// A load or store of every name as two: one of the names of the class, and one of those outside it.
fn split(record: Record, class: u8) -> Vec<Record> {
    let keys = [KEY_OF_CLASS + class, KEY_OUTSIDE_CLASS + class];
    match record {
        Record::Load { k, y, object, key: EVERY_NAME, w } => {
            keys.map(|key| Record::Load { k, y, object, key, w }).to_vec()
        }
        Record::Store { k, object, key: EVERY_NAME, value } => {
            keys.map(|key| Record::Store { k, object, key, value }).to_vec()
        }
        other => vec![other],
    }
}

/// The names of a class and those outside it are together every name, for host and guest.
#[test]
fn a_class_and_what_is_outside_it_are_every_name() {
    let mut r = Prng::new(7);
    for (name, _, program) in programs(0..150, 0..30) {
        let class = r.below(CLASSES as usize) as u8;
        let mut halved = program.clone();
        for records in [&mut halved.records, &mut halved.guest] {
            *records = records.iter().flat_map(|&record| split(record, class)).collect();
        }
        assert_eq!(solve(&halved).table, solve(&program).table, "{name}, class {class}");
    }
}

/// A fact taken away is concluded again from the rest, or some other fact stood on it alone: refused 10 either way,
/// unless the remaining table is itself closed, which cannot be below the least one.
#[test]
fn one_fact_less_is_refused() {
    let mut r = Prng::new(1);
    for (name, _, program) in programs(0..200, 0..60) {
        let e = program.edition;
        let answer = solve(&program);
        for _ in 0..5 {
            let mut table = answer.table.clone();
            let (row, l) = some_fact(e, &mut r, &table);
            let rest = e.row(&table, row) & !Row::of(l);
            e.put(&mut table, row, rest);
            let refusal = check_program(&program, &table).expect_err(&name);
            assert_eq!(refusal.number, 10, "{name}");
            let concluded = one_use(&program, &table);
            let enlarges = |row: usize| !(concluded[row] & !e.row(&table, row)).is_empty();
            assert!(enlarges(refusal.position));
            assert!(!(0..refusal.position).any(enlarges));
        }
    }
}

/// Row 0, bits of undeclared labels, and words after the table are passed over; a full table has only 11 against it.
#[test]
fn what_the_check_passes_over() {
    let mut r = Prng::new(2);
    for (name, file, program) in programs(0..200, 0..60) {
        let e = program.edition;
        let answer = solve(&program);
        let mut table = answer.table.clone();
        for row in 0..e.rows() {
            let strays = Row::from_words(&[r.next(), r.next(), r.next(), r.next()]);
            let strays = if row == 0 { strays } else { strays & !program.declared_row() };
            let more = e.row(&table, row) | strays;
            e.put(&mut table, row, more);
        }
        table.extend([r.next(), r.next()]);
        assert_eq!(check_in(e, &file, &table), check_in(e, &file, &answer.table), "{name}");
        let full = vec![u64::MAX; e.table_words()];
        let expected = match program.forbidden.lowest() {
            None => Ok(()),
            Some(l) => Err(Refusal { number: 11, position: l as usize }),
        };
        assert_eq!(check_in(e, &file, &full), expected, "{name}");
    }
}

/// A table that is closed but not the least is accepted where its row 1 has nothing forbidden; more facts never help.
#[test]
fn greater_tables() {
    let mut r = Prng::new(3);
    let mut accepted = [0, 0];
    for (name, _, program) in programs(0..150, 0..80).filter(|(_, file, _)| file.len() < 4000) {
        let e = program.edition;
        let answer = solve(&program);
        let mut table = answer.table.clone();
        let row = r.between(256, e.rows() - 1);
        let more = e.row(&table, row) | Row::of(r.below(e.labels()) as u8);
        e.put(&mut table, row, more);
        let (table, _) = by_rounds(&program, table);
        let result = check_program(&program, &table);
        assert_ne!(result.err().map(|r| r.number), Some(10), "{name}");
        if result.is_ok() {
            accepted[e as usize] += 1;
            assert_eq!(answer.verdict, Verdict::Confined, "{name}");
        }
    }
    assert!(accepted[0] > 20 && accepted[1] > 20, "{accepted:?}");
}

#[test]
fn the_empty_table_and_short_tables() {
    for (edition, words) in [(Edition::Small, 2_432), (Edition::Large, 35_840)] {
        assert_eq!(check_in(edition, &[], &vec![0; words]), Err(Refusal { number: 10, position: 1 }));
        assert_eq!(check_in(edition, &[], &vec![0; words - 1]), Err(Refusal { number: 8, position: 0 }));
        assert_eq!(check_in(edition, &[0], &vec![0; words]), Err(Refusal { number: 1, position: 0 }));
        assert_eq!(check_in(edition, &vec![0; 32_769], &vec![0; words]), Err(Refusal { number: 9, position: 0 }));
    }
    assert_eq!(check(&[], &vec![0; 2_432]), Err(Refusal { number: 10, position: 1 }));
}
