//! Reader and writer of the format against the operations, in each edition: what is refused, and where.

#[macro_use]
mod editions;
mod files;

use files::{damaged, random_file, Random};
use pezvoran::format::{read, records, Fault, Kind, Label, Var, Writer};
use pezvoran::{check, verdict, Answer, Edition, Refusal, Table, FILE_BYTES};

in_both_editions! {
    every_value_of_every_field_is_judged_as_by_the_operations
    a_value_of_one_field_may_hang_on_another
    random_files_are_refused_as_by_the_operations
    bytes_without_order_are_refused_as_by_the_operations
    every_function_needs_a_record
    every_prefix_is_refused_as_by_the_operations
    the_writer_refuses_what_the_reader_would
    the_longest_file_can_be_written
    a_body_of_another_length_is_refused
}

/// How the operations read a file: verdict and check agree on it.
fn operation<E: Edition>(file: &[u8], table: &mut Table<E>) -> Option<Refusal> {
    let refusal = match verdict(file, table) {
        Answer::Refused(refusal) => Some(refusal),
        _ => None,
    };
    if let Some(refusal) = refusal {
        assert_eq!(check(file, table), Answer::Refused(refusal), "{file:?}");
    }
    refusal
}

/// How often each refusal was met, 0 for files that are readable.
type Counts = [usize; 12];

fn compare<E: Edition>(file: &[u8], table: &mut Table<E>, counts: &mut Counts) {
    let expected = operation::<E>(file, table);
    let fault = read::<E>(file).err();
    assert_eq!(fault.as_ref().map(Fault::refusal), expected, "{file:?}");
    counts[expected.map_or(0, |refusal| usize::from(refusal.number))] += 1;
    if let Some(fault) = fault {
        makes_sense(&fault, file);
    }
}

/// The parts of a fault go with its number and with the file.
fn makes_sense(fault: &Fault, file: &[u8]) {
    assert_eq!(fault.record.is_some(), fault.number <= 6);
    assert_eq!(fault.kind.is_some(), (2..=6).contains(&fault.number));
    assert_eq!(fault.field.is_some(), (3..=6).contains(&fault.number));
    if let Some(record) = fault.record {
        assert_eq!(records(file).take_while(|whole| whole.position < fault.position).count(), record - 1);
    }
    if let (Some(kind), Some(field)) = (fault.kind, fault.field) {
        let stated = kind.fields()[field.index];
        assert_eq!((file[fault.position], file[fault.position + 1 + field.index]), (kind.byte(), field.value));
        assert_eq!((stated.role, stated.class), (field.role, field.class));
        assert!(fault.number == 6 || fault.number == field.class.refusal());
    }
    assert!(!fault.why.is_empty() && fault.to_string().ends_with(&fault.why));
}

fn last<E: Edition>() -> u8 {
    (E::LABELS - 1) as u8
}

/// Labels of every type, the last one too, built-in ones, variables of the top level and of a function, named and not, a function with a record and one without,
/// a mask. No profile.
fn host<E: Edition>() -> Vec<u8> {
    let last = last::<E>();
    let labels =
        [[2, 5, 1, 0], [2, 6, 2, 0], [2, 7, 3, 0], [2, 8, 1, 1], [2, 9, 2, 1], [2, 10, 3, 1], [2, 31, 2, 0], [2, last, 1, 0], [2, last - 1, 2, 0]];
    let variables = [[5, 2, 0, 255], [5, 3, 6, 255], [5, 4, 0, 31], [5, 255, 0, 255], [5, 128, last - 1, 255]];
    let functions = [[4, 6, 3, 0, 2, 0, 0, 0, 255], [4, 9, 0, 0, 0, 0, 0, 0, 0], [4, last - 1, 0, 0, 0, 0, 0, 0, 0]];
    let mut file = labels.concat();
    file.extend(variables.concat());
    file.extend(functions.concat());
    file.extend([1, 4, 3]);
    file
}

/// A good body of each kind behind the host.
fn good_body(kind: Kind) -> Vec<u8> {
    match kind {
        Kind::Name => vec![5, 1],
        Kind::Label => vec![11, 1, 0],
        Kind::Forbid => vec![5],
        Kind::Function => vec![31, 2, 3, 0, 0, 0, 0, 4],
        Kind::Variable => vec![5, 0, 255],
        Kind::Grant => vec![2],
        Kind::Property => vec![0, 4, 5],
        Kind::Held => vec![2, 5],
        Kind::Profile => vec![0],
        Kind::Copy => vec![0, 2, 3],
        Kind::Load => vec![6, 2, 3, 4, 5],
        Kind::Store => vec![6, 2, 137, 3],
        Kind::Make => vec![0, 2, 7],
        Kind::MakeFunction => vec![0, 2, 6, 5],
        Kind::Call => vec![6, 2, 3, 4, 0, 2, 3, 4, 255, 128],
        Kind::New => vec![6, 2, 3, 4, 5, 0, 2, 3, 4, 255, 128],
        Kind::Return | Kind::Throw | Kind::Catch | Kind::Prim => vec![6, 2],
    }
}

fn record(kind: Kind, body: &[u8]) -> Vec<u8> {
    [&[kind.byte()], body].concat()
}

/// The record behind the host, by reader and operations, and by a writer of the host.
fn compare_behind<E: Edition>(kind: Kind, body: &[u8], table: &mut Table<E>, counts: &mut Counts) {
    let file = [host::<E>(), record(kind, body)].concat();
    compare::<E>(&file, table, counts);
    let mut writer = written::<E>(&host::<E>());
    let refused = writer.record(kind, body).err();
    let expected = operation(&file, table).filter(|refusal| refusal.number != 7);
    assert_eq!(refused.as_ref().map(Fault::refusal), expected, "{} {body:?}", kind.name());
    assert_eq!(writer.bytes() == file, refused.is_none());
}

/// A writer that wrote the whole records of a file.
fn written<E: Edition>(file: &[u8]) -> Writer<E> {
    let mut writer = Writer::new();
    for record in records(file) {
        let position = writer.record(record.kind, record.body).expect("a good record");
        assert_eq!(position, record.position);
    }
    assert_eq!(writer.bytes(), file);
    writer
}

fn every_value_of_every_field_is_judged_as_by_the_operations<E: Edition>() {
    let (mut table, mut counts) = (Table::<E>::new(), Counts::default());
    for kind in Kind::ALL {
        for index in 0..kind.body_length() {
            let mut body = good_body(kind);
            for value in 0..=u8::MAX {
                body[index] = value;
                compare_behind::<E>(kind, &body, &mut table, &mut counts);
            }
        }
    }
    assert!([3, 4, 5].iter().all(|&number| counts[number] >= 1_000), "{counts:?}");
    assert!([0, 6, 7].iter().all(|&number| counts[number] >= 10), "{counts:?}");
}

/// A name where the owner is a function; a repeat of which another field is bad; a record with two bad fields.
fn a_value_of_one_field_may_hang_on_another<E: Edition>() {
    let (mut table, mut counts) = (Table::<E>::new(), Counts::default());
    for owner in files::EDGES {
        for name in files::EDGES {
            for variable in [0, 1, 2, 5] {
                compare_behind::<E>(Kind::Variable, &[variable, owner, name], &mut table, &mut counts);
            }
        }
    }
    let repeats: [(Kind, &[u8]); 8] = [
        (Kind::Name, &[4, 1]),
        (Kind::Name, &[4, 2]),
        (Kind::Label, &[5, 1, 0]),
        (Kind::Label, &[5, 4, 0]),
        (Kind::Function, &[6, 0, 0, 0, 0, 0, 0, 0]),
        (Kind::Function, &[6, 0, 0, 0, 0, 0, 0, 1]),
        (Kind::Variable, &[3, 6, 4]),
        (Kind::Load, &[5, 1, 1, 32, 7]),
    ];
    for (kind, body) in repeats {
        compare_behind::<E>(kind, body, &mut table, &mut counts);
    }
    for class in [0, 1, 7, 8] {
        let file = [host::<E>(), vec![4, 31, 0, 0, 0, 0, 0, 0, 0, 9, 0, 9, class]].concat();
        compare::<E>(&file, &mut table, &mut counts);
    }
    assert!([4, 5, 6].iter().all(|&number| counts[number] >= 4), "{counts:?}");
}

fn random_files_are_refused_as_by_the_operations<E: Edition>() {
    let (mut table, mut counts, mut random) = (Table::<E>::new(), Counts::default(), Random(1));
    for round in 0..3_000 {
        let (records, bad) = (1 + random.below(60), [1_000_000, 300, 60][round % 3]);
        let file = random_file(&mut random, E::LABELS, records, bad);
        compare::<E>(&file, &mut table, &mut counts);
        let once = damaged(&mut random, &file);
        compare::<E>(&once, &mut table, &mut counts);
        compare::<E>(&damaged(&mut random, &once), &mut table, &mut counts);
    }
    assert!((0..=7).all(|number| counts[number] >= 50), "{counts:?}");
}

fn bytes_without_order_are_refused_as_by_the_operations<E: Edition>() {
    let (mut table, mut counts, mut random) = (Table::<E>::new(), Counts::default(), Random(2));
    for _ in 0..3_000 {
        let length = random.below(30);
        let any: Vec<u8> = (0..length).map(|_| random.byte()).collect();
        compare::<E>(&any, &mut table, &mut counts);
        let small: Vec<u8> = (0..length).map(|_| random.byte() % 27).collect();
        compare::<E>(&small, &mut table, &mut counts);
        let edges: Vec<u8> = (0..length).map(|_| random.edge()).collect();
        compare::<E>(&edges, &mut table, &mut counts);
    }
    for byte in 0..=u8::MAX {
        compare::<E>(&[byte], &mut table, &mut counts);
        compare::<E>(&[&host::<E>()[..], &[byte]].concat(), &mut table, &mut counts);
    }
    assert!((0..=5).all(|number| counts[number] >= 50), "{counts:?}");
}

fn every_function_needs_a_record<E: Edition>() {
    let (mut table, mut counts) = (Table::<E>::new(), Counts::default());
    for label in 5..=last::<E>() {
        let file = [2, label, 2, 0, 4, label, 0, 0, 0, 0, 0, 0, 0];
        compare::<E>(&file[..4], &mut table, &mut counts);
        compare::<E>(&file, &mut table, &mut counts);
    }
    assert_eq!((counts[0], counts[7]), (E::LABELS - 5, E::LABELS - 5));
}

fn every_prefix_is_refused_as_by_the_operations<E: Edition>() {
    let (mut table, mut counts, mut random) = (Table::<E>::new(), Counts::default(), Random(3));
    for _ in 0..20 {
        let file = random_file(&mut random, E::LABELS, 40, 1_000_000);
        for length in 0..=file.len() {
            compare::<E>(&file[..length], &mut table, &mut counts);
        }
    }
    assert!([0, 2, 7].iter().all(|&number| counts[number] >= 50), "{counts:?}");
}

/// Record by record, good and bad ones: a record is written exactly where the operations refuse the file with it for nothing but 7, and the next goes on from there.
fn the_writer_refuses_what_the_reader_would<E: Edition>() {
    let (mut table, mut counts, mut random) = (Table::<E>::new(), Counts::default(), Random(4));
    for _ in 0..300 {
        // The second part declares some things again.
        let source = [random_file(&mut random, E::LABELS, 60, 25), random_file(&mut random, E::LABELS, 30, 25)].concat();
        let mut writer = Writer::<E>::new();
        for record in records(&source) {
            let with = [writer.bytes(), &[record.kind.byte()], record.body].concat();
            let expected = operation(&with, &mut table).filter(|refusal| refusal.number != 7);
            let position = writer.bytes().len();
            match writer.record(record.kind, record.body) {
                Ok(at) => assert_eq!((at, expected), (position, None)),
                Err(fault) => {
                    assert_eq!(Some(fault.refusal()), expected);
                    counts[usize::from(fault.number)] += 1;
                }
            }
            assert_eq!(writer.bytes().len(), if expected.is_some() { position } else { with.len() });
        }
        let bytes = writer.bytes().to_vec();
        assert_eq!(writer.sheet().length(), bytes.len());
        let finished = writer.finish();
        assert_eq!(finished.as_ref().err().map(Fault::refusal), operation(&bytes, &mut table));
        counts[finished.as_ref().map_or(7, |_| 0)] += 1;
        assert!(finished.is_err() || finished == Ok(bytes));
    }
    assert!([0, 3, 4, 5, 6, 7].iter().all(|&number| counts[number] >= 20), "{counts:?}");
}

/// 10,922 returns of nothing at the top level and a forbid fill a file to the last byte.
fn the_longest_file_can_be_written<E: Edition>() {
    let mut table = Table::<E>::new();
    let mut writer = Writer::<E>::new();
    for _ in 0..10_922 {
        writer.return_value(Label::TOP, Var::NONE).expect("there is room");
    }
    let cut = writer.return_value(Label::TOP, Var::NONE).expect_err("there is no room");
    assert_eq!((cut.number, cut.position, cut.record), (9, 0, None));
    // A record that is bad besides is refused for the length, as the operations do.
    let bad = writer.return_value(Label(77), Var(1)).expect_err("there is no room");
    assert_eq!((bad.number, bad.to_string()), (9, "the file has 32769 bytes; 32768 at most are wanted".into()));
    assert_eq!(operation(&[writer.bytes(), &[23, 77, 1]].concat(), &mut table), Some(bad.refusal()));
    writer.forbid(Label::GLOBAL_OBJECT).expect("there is room");
    let mut file = writer.finish().expect("nothing is missing");
    assert_eq!((file.len(), read::<E>(&file).map(|sheet| sheet.length())), (FILE_BYTES, Ok(FILE_BYTES)));
    assert_eq!(operation(&file, &mut table), None);
    file.push(0);
    compare::<E>(&file, &mut table, &mut Counts::default());
}

fn a_body_of_another_length_is_refused<E: Edition>() {
    for kind in Kind::ALL {
        let good = good_body(kind);
        for body in [&[][..], &good[1..], &[&good[..], &[0]].concat()] {
            let mut writer = written::<E>(&host::<E>());
            let fault = writer.record(kind, body).expect_err("another length");
            assert_eq!((fault.number, fault.kind, fault.position), (2, Some(kind), host::<E>().len()));
            assert_eq!(writer.bytes(), host::<E>());
        }
    }
}
