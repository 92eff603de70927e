//! Every byte value in every field of every kind, against a list of good values written by hand from document 01 and requests 01, 02, 04 and
//! 13.

use second::generate::edges_in;
use second::reader::read_in;
use second::Edition;

/// What a field may be after the preface of `edges_in`: labels 5 plain, 6 function, 7 array, 8 plain, 9 function, 10 array,
/// 12 function (its function record still due); variables 2, 3, 5 of owner 0, 4 of 6, 6 of 9; functions 6, 9; name 9.
/// In the large edition labels 63, 64, 127, 128, 191, 192, 254, 255 stand where these have 5 to 12.
#[derive(Clone, Copy)]
enum Field {
    Var,
    NotZero,
    Top,
    Scope,
    Any,
    Host,
    Plain,
    Made,
    Func,
    Name,
    Class,
    Key,
}

use Field::*;

/// The label in the terms above; 13 for one that is not declared.
fn small(edition: Edition, l: u8) -> u8 {
    match (edition, l) {
        (_, 0..=4) | (Edition::Small, _) => l,
        (Edition::Large, 63) => 5,
        (Edition::Large, 64) => 6,
        (Edition::Large, 127) => 7,
        (Edition::Large, 128) => 8,
        (Edition::Large, 191) => 9,
        (Edition::Large, 192) => 10,
        (Edition::Large, 255) => 12,
        _ => 13,
    }
}

/// 0 where the value is good, else the refusal number.
fn judge(edition: Edition, field: Field, value: u8) -> u8 {
    let among = |good: &[u8], number| if good.contains(&value) { 0 } else { number };
    let label = |good: &[u8]| if good.contains(&small(edition, value)) { 0 } else { 4 };
    match field {
        Var => among(&[0, 2, 3, 4, 5, 6], 3),
        NotZero => among(&[2, 3, 4, 5, 6], 3),
        Top => among(&[2, 3, 5], 3),
        Scope => label(&[0, 6, 9, 12]),
        Any => label(&[0, 1, 2, 3, 4, 5, 6, 7, 8, 9, 10, 12]),
        Host => label(&[0, 1, 2, 4, 5, 6, 7, 8, 9, 10, 12]),
        Plain => label(&[5, 8]),
        Made => label(&[5, 7, 8, 10]),
        Func => label(&[6, 9, 12]),
        Name => {
            if value <= 31 {
                0
            } else {
                5
            }
        }
        Class => among(&[0, 1, 2, 3, 4, 5, 6, 7], 5),
        Key => {
            if value <= 31 || (128..=143).contains(&value) {
                0
            } else {
                5
            }
        }
    }
}

/// The refusal number for one field (counted from 1) of a kind, all other fields being good.
fn expected(edition: Edition, kind: u8, field: usize, value: u8) -> u8 {
    let fields: &[Field] = match kind {
        1 if field == 1 => return if value == 9 { 6 } else { judge(edition, Name, value) },
        1 => return if value % 2 == 1 { 0 } else { 5 },
        2 if field == 1 => {
            return match value {
                0..=4 => 4,
                64..=255 if edition == Edition::Small => 4,
                _ if matches!(small(edition, value), 5..=10 | 12) => 6,
                _ => 0,
            }
        }
        // A function label whose function record never comes.
        2 if field == 2 => return [5, 0, 7, 0].get(value as usize).copied().unwrap_or(5),
        2 => return if value < 2 { 0 } else { 5 },
        4 if field == 1 => {
            return match small(edition, value) {
                12 => 0,
                6 | 9 => 6,
                _ => 4,
            }
        }
        4 => return judge(edition, Var, value),
        5 if field == 1 => {
            return match value {
                0 | 1 => 3,
                2..=6 => 6,
                _ => 0,
            }
        }
        // The record has name 6, which only owner 0 allows.
        5 if field == 2 => {
            return match small(edition, value) {
                0 => 0,
                6 | 9 | 12 => 5,
                _ => 4,
            }
        }
        5 => return if value <= 31 || value == 255 { 0 } else { 5 },
        3 => &[Any],
        6 => &[Top],
        7 => &[Host, Name, Host],
        8 => &[Top, Host],
        9 => &[Class],
        16 => &[Scope, Var, Var],
        17 => &[Scope, Var, Var, Key, Plain],
        18 => &[Scope, Var, Key, Var],
        19 => &[Scope, Var, Made],
        20 => &[Scope, Var, Func, Plain],
        21 => &[Scope, Var, Var, Var, Var, Var, Var, Var, Var, Var],
        22 => &[Scope, Var, Var, NotZero, Plain, Var, Var, Var, Var, Var, Var],
        23..=26 => &[Scope, Var],
        _ => panic!("kind {kind}"),
    };
    judge(edition, fields[field - 1], value)
}

#[test]
fn every_value_of_every_field() {
    for edition in Edition::BOTH {
        every_value(edition);
    }
}

fn every_value(edition: Edition) {
    let mut count = 0;
    for (name, bytes) in edges_in(edition) {
        let number = read_in(edition, &bytes).err().map_or(0, |r| r.number);
        let parts: Vec<&str> = name.split('-').collect();
        let expected = match parts[1..] {
            ["kind", kind] => {
                if matches!(kind.parse(), Ok(1..=9 | 16..=26)) {
                    2
                } else {
                    1
                }
            }
            [_, "cut", _] => 2,
            ["4", "due"] => 0,
            [_, "due"] => 7,
            // Where a profile stands, a good class is one too many.
            ["9", "1", value, "again"] => match expected(edition, 9, 1, value.parse().unwrap()) {
                0 => 6,
                bad => bad,
            },
            [kind, field, value] | [kind, field, value, "top"] => {
                expected(edition, kind.parse().unwrap(), field.parse().unwrap(), value.parse().unwrap())
            }
            _ => panic!("{name}"),
        };
        assert_eq!(number, expected, "{edition:?} {name}");
        count += 1;
    }
    println!("{edition:?}: {count} edges");
}
