//! The refusals of the reader in both editions: their order inside a record, their positions, and what earlier records declare.

use second::generate::writer::Writer;
use second::generate::{edges_in, sizes_in};
use second::reader::read_in;
use second::Edition;

/// Number and position in the edition, or (0, 0) for a readable file.
fn outcome_in(edition: Edition, bytes: &[u8]) -> (u8, usize) {
    read_in(edition, bytes).err().map_or((0, 0), |r| (r.number, r.position))
}

/// The same for a file that both editions refuse alike.
fn outcome(bytes: &[u8]) -> (u8, usize) {
    let outcome = outcome_in(Edition::Small, bytes);
    assert_eq!(outcome, outcome_in(Edition::Large, bytes), "{bytes:?}");
    outcome
}

fn after(head: &Writer, record: &[u8]) -> u8 {
    let bytes = [&head.bytes[..], record].concat();
    let (number, position) = outcome(&bytes);
    if number != 0 {
        assert_eq!(position, if number == 7 { bytes.len() } else { head.bytes.len() }, "{record:?}");
    }
    number
}

/// Labels 5 plain, 6 function, 7 array; variables 2 (top), 3 (top, name 4), 4 (of 6); function 6.
fn head() -> Writer {
    let mut w = Writer::new();
    w.label(5, 1, 0).label(6, 2, 0).label(7, 3, 0).variable(2, 0, 255).variable(3, 0, 4).variable(4, 6, 255);
    w.function(6, 4, [0; 6]);
    w
}

#[test]
fn unknown_kinds_and_short_records() {
    let h = head();
    for kind in [0, 10, 15, 27, 100, 255] {
        assert_eq!(after(&h, &[kind]), 1);
    }
    // Cut short comes before a bad byte in the part that is there.
    assert_eq!(after(&h, &[2, 64, 9]), 2);
    assert_eq!(after(&h, &[17, 99, 99, 99, 99]), 2);
    assert_eq!(after(&h, &[3]), 2);
    assert_eq!(after(&h, &[22, 0, 0, 0, 0, 0, 0, 0, 0, 0, 0]), 2);
}

#[test]
fn bytes_from_the_left() {
    let h = head();
    let list: [(&[u8], u8); 28] = [
        (&[2, 4, 4, 2], 4),
        (&[2, 8, 4, 2], 5),
        (&[2, 8, 1, 2], 5),
        (&[2, 5, 1, 2], 5),
        (&[2, 5, 1, 1], 6),
        (&[1, 32, 0], 5),
        (&[1, 31, 0], 5),
        (&[4, 5, 9, 0, 0, 0, 0, 0, 0], 4),
        (&[4, 6, 9, 0, 0, 0, 0, 0, 0], 3),
        (&[4, 6, 0, 0, 0, 0, 0, 0, 1], 3),
        (&[4, 6, 0, 0, 0, 0, 0, 0, 0], 6),
        (&[5, 1, 9, 99], 3),
        (&[5, 2, 9, 99], 4),
        (&[5, 2, 0, 99], 5),
        (&[5, 9, 6, 4], 5),
        (&[5, 2, 6, 255], 6),
        (&[7, 3, 32, 3], 4),
        (&[7, 0, 32, 3], 5),
        (&[7, 0, 31, 3], 4),
        (&[16, 5, 9, 9], 4),
        (&[16, 6, 9, 9], 3),
        (&[17, 0, 2, 9, 32, 6], 3),
        (&[17, 0, 2, 2, 32, 6], 5),
        (&[17, 0, 2, 2, 31, 6], 4),
        (&[17, 0, 2, 2, 136, 6], 4),
        (&[17, 0, 2, 2, 144, 6], 5),
        (&[18, 0, 9, 144, 9], 3),
        (&[18, 0, 2, 143, 9], 3),
    ];
    for (record, number) in list {
        assert_eq!(after(&h, record), number, "{record:?}");
    }
}

/// Labels from 64 up are bad in the small edition only, wherever they stand.
#[test]
fn labels_of_the_large_edition() {
    let list: [(&[u8], u8); 9] = [
        (&[2, 64, 4, 2], 5),
        (&[2, 64, 1, 1], 0),
        (&[2, 200, 1, 0, 2, 200, 1, 0], 6),
        (&[2, 255, 2, 0], 7),
        (&[2, 255, 2, 0, 4, 255, 0, 0, 0, 0, 0, 0, 0], 0),
        (&[2, 255, 2, 0, 4, 255, 0, 0, 0, 0, 0, 0, 0, 5, 9, 255, 255, 23, 255, 9, 3, 255], 0),
        (&[2, 255, 2, 0, 4, 255, 0, 0, 0, 0, 0, 0, 0, 4, 255, 0, 0, 0, 0, 0, 0, 0], 6),
        (&[2, 254, 1, 0, 7, 254, 31, 253], 4),
        (&[2, 254, 1, 0, 7, 254, 31, 254, 19, 0, 0, 254, 17, 0, 0, 0, 143, 254], 0),
    ];
    for (file, number) in list {
        assert_eq!(outcome_in(Edition::Large, file).0, number, "{file:?}");
        assert_eq!(outcome_in(Edition::Small, file), (4, 0), "{file:?}");
    }
}

#[test]
fn each_field_of_each_kind() {
    let h = head();
    let list: [(&[u8], u8); 48] = [
        (&[3, 0], 0),
        (&[3, 3], 0),
        (&[3, 8], 4),
        (&[3, 64], 4),
        (&[6, 0], 3),
        (&[6, 1], 3),
        (&[6, 2], 0),
        (&[6, 3], 0),
        (&[6, 4], 3),
        (&[6, 5], 3),
        (&[8, 2, 3], 4),
        (&[8, 2, 4], 0),
        (&[8, 4, 5], 3),
        (&[8, 0, 5], 3),
        (&[7, 1, 0, 2], 0),
        (&[7, 5, 128, 2], 5),
        (&[16, 3, 2, 2], 4),
        (&[16, 0, 1, 2], 3),
        (&[16, 6, 0, 0], 0),
        (&[17, 0, 0, 0, 0, 1], 4),
        (&[17, 0, 0, 0, 0, 7], 4),
        (&[17, 0, 2, 2, 135, 5], 0),
        (&[17, 0, 2, 2, 136, 5], 0),
        (&[17, 0, 2, 2, 143, 5], 0),
        (&[17, 0, 2, 2, 144, 5], 5),
        (&[18, 0, 2, 135, 3], 0),
        (&[18, 0, 2, 136, 3], 0),
        (&[18, 0, 2, 143, 3], 0),
        (&[18, 0, 2, 144, 3], 5),
        (&[18, 0, 2, 144, 9], 5),
        (&[19, 0, 2, 5], 0),
        (&[19, 0, 2, 7], 0),
        (&[19, 0, 2, 6], 4),
        (&[19, 0, 2, 4], 4),
        (&[20, 0, 2, 6, 5], 0),
        (&[20, 0, 2, 3, 5], 4),
        (&[20, 0, 2, 6, 3], 4),
        (&[20, 0, 2, 6, 7], 4),
        (&[21, 0, 2, 2, 2, 0, 0, 0, 0, 0, 1], 3),
        (&[22, 0, 2, 2, 0, 99, 0, 0, 0, 0, 0, 0], 3),
        (&[22, 0, 2, 2, 2, 99, 1, 0, 0, 0, 0, 0], 4),
        (&[22, 0, 0, 0, 2, 5, 0, 0, 0, 0, 0, 1], 3),
        (&[23, 0, 99], 3),
        (&[23, 6, 99], 3),
        (&[23, 6, 2], 0),
        (&[24, 0, 2], 0),
        (&[25, 0, 0], 0),
        (&[26, 6, 4], 0),
    ];
    for (record, number) in list {
        assert_eq!(after(&h, record), number, "{record:?}");
    }
}

/// Request 02: the scope of a return is any scope, and its value is judged in scope 0 as in others. No record names variable 1, the guest's bag.
#[test]
fn returns() {
    let h = head();
    for value in [0, 2, 3, 4] {
        assert_eq!(after(&h, &[23, 0, value]), 0, "{value}");
    }
    for value in [1, 5, 99, 255] {
        assert_eq!(after(&h, &[23, 0, value]), 3, "{value}");
        assert_eq!(after(&h, &[23, 6, value]), 3, "{value}");
    }
    // Labels that are no scope: built-in ones, the guest's, a plain one, an array, undeclared ones. They come before a bad value.
    for (k, value) in [1, 2, 3, 4, 5, 7, 8, 63, 64, 255].into_iter().flat_map(|k| [0, 2, 99].map(|value| (k, value))) {
        assert_eq!(after(&h, &[23, k, value]), 4, "{k} {value}");
    }
    assert_eq!((after(&h, &[23]), after(&h, &[23, 0]), after(&h, &[23, 3])), (2, 2, 2));
    // Only earlier records declare the value.
    let mut w = Writer::new();
    w.give_back(0, 2).variable(2, 0, 255);
    assert_eq!(outcome(&w.bytes), (3, 0));
    let mut w = Writer::new();
    w.variable(2, 0, 255).give_back(0, 2);
    assert_eq!(outcome(&w.bytes), (0, 0));
}

/// Request 04: a class is 0 to 7, and a profile stands once; a bad class comes before a second profile.
#[test]
fn profiles() {
    let h = head();
    for class in 0..=255 {
        let bad = if class <= 7 { 0 } else { 5 };
        assert_eq!(after(&h, &[9, class]), bad, "{class}");
        let twice = if class <= 7 { 6 } else { 5 };
        for first in [0, 1, 7] {
            assert_eq!(outcome(&[9, first, 9, class]), (twice, 2), "{first} {class}");
            assert_eq!(outcome(&[9, first, 3, 3, 9, class]), (twice, 4), "{first} {class}");
        }
    }
    assert_eq!(after(&h, &[9]), 2);
    assert_eq!(outcome(&[9, 0, 9]), (2, 2));
    // The second is refused before a record that follows it, and after one before it.
    assert_eq!(outcome(&[9, 0, 9, 0, 0]), (6, 2));
    assert_eq!(outcome(&[9, 0, 0, 9, 0]), (1, 2));
}

#[test]
fn only_earlier_records_declare() {
    let mut w = Writer::new();
    w.forbid(5).label(5, 1, 0);
    assert_eq!(outcome(&w.bytes), (4, 0));
    let mut w = Writer::new();
    w.label(6, 2, 0).function(6, 2, [0; 6]).variable(2, 0, 255);
    assert_eq!(outcome(&w.bytes), (3, 4));
    // A function may be made and be a scope before its function record stands.
    let mut w = Writer::new();
    w.label(5, 1, 0).label(6, 2, 0).make_function(6, 0, 6, 5).function(6, 0, [0; 6]);
    assert_eq!(outcome(&w.bytes), (0, 0));
}

#[test]
fn seven_comes_last() {
    let mut w = Writer::new();
    w.label(6, 2, 0);
    assert_eq!(outcome(&w.bytes), (7, 4));
    w.forbid(6);
    assert_eq!(outcome(&w.bytes), (7, 6));
    w.put(&[0]);
    assert_eq!(outcome(&w.bytes), (1, 6));
}

#[test]
fn every_edge_and_size() {
    for edition in Edition::BOTH {
        edges_and_sizes(edition);
    }
}

fn edges_and_sizes(edition: Edition) {
    let mut counts = [0usize; 10];
    for (name, bytes) in edges_in(edition) {
        let (number, position) = outcome_in(edition, &bytes);
        assert!(number < 8 && position <= bytes.len(), "{name}");
        counts[number as usize] += 1;
    }
    println!("{edition:?}: edges by refusal number {counts:?}");
    assert!((0..8).all(|number| counts[number] > 0));
    for (name, bytes) in sizes_in(edition) {
        let expected = match &name {
            _ if bytes.len() > 32_768 => (9, 0),
            _ if name.ends_with("zeros") => (1, 0),
            _ if name.ends_with("forbids") && bytes.len() % 2 == 1 => (2, bytes.len() - 1),
            _ => (0, 0),
        };
        assert_eq!(outcome_in(edition, &bytes), expected, "{edition:?} {name}");
    }
}
