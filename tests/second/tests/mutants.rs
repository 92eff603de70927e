//! Shows that walks notice a rule left out: tables of a program that lacks something, walked over the whole program.

mod common;

use common::short_files;
use second::machine::walk;
use second::program::{Program, Record, Type};
use second::solver::solve;
use second::Edition;

type Change = fn(&mut Program);

/// Leaves out the records for which `lost` is true.
fn lose(program: &mut Program, lost: fn(&Record) -> bool) {
    program.records.retain(|record| !lost(record));
}

fn lose_guest(program: &mut Program, lost: fn(&Record) -> bool) {
    program.guest.retain(|record| !lost(record));
}

/// Replaces each record by others.
fn replace(program: &mut Program, by: fn(Record) -> Vec<Record>) {
    program.records = program.records.iter().flat_map(|&record| by(record)).collect();
}

const CHANGES: [(&str, Change); 33] = [
    ("grant", |p| lose(p, |r| matches!(r, Record::Grant { .. }))),
    ("property", |p| lose(p, |r| matches!(r, Record::Property { .. }))),
    ("held", |p| lose(p, |r| matches!(r, Record::Held { .. }))),
    ("copy", |p| lose(p, |r| matches!(r, Record::Copy { .. }))),
    ("load", |p| lose(p, |r| matches!(r, Record::Load { .. }))),
    ("store", |p| lose(p, |r| matches!(r, Record::Store { .. }))),
    ("make", |p| lose(p, |r| matches!(r, Record::Make { .. }))),
    ("make function", |p| lose(p, |r| matches!(r, Record::MakeFunction { .. }))),
    ("call", |p| lose(p, |r| matches!(r, Record::Call { .. }))),
    ("new", |p| lose(p, |r| matches!(r, Record::New { .. }))),
    ("return", |p| lose(p, |r| matches!(r, Record::Return { .. }))),
    ("throw", |p| lose(p, |r| matches!(r, Record::Throw { .. }))),
    ("catch", |p| lose(p, |r| matches!(r, Record::Catch { .. }))),
    ("prim", |p| lose(p, |r| matches!(r, Record::Prim { .. }))),
    ("guest load", |p| lose_guest(p, |r| matches!(r, Record::Load { .. }))),
    ("guest store", |p| lose_guest(p, |r| matches!(r, Record::Store { .. }))),
    ("guest call", |p| lose_guest(p, |r| matches!(r, Record::Call { .. } | Record::New { .. }))),
    ("guest new", |p| lose_guest(p, |r| matches!(r, Record::New { .. }))),
    ("guest return", |p| lose_guest(p, |r| matches!(r, Record::Return { .. }))),
    ("guest throw", |p| lose_guest(p, |r| matches!(r, Record::Throw { .. }))),
    ("guest catch", |p| lose_guest(p, |r| matches!(r, Record::Catch { .. }))),
    ("guest formals", |p| p.functions[3] = None),
    ("this variables", |p| p.functions.iter_mut().skip(5).flatten().for_each(|f| f.this = 0)),
    ("formals", |p| p.functions.iter_mut().skip(5).flatten().for_each(|f| f.formals = [0; 6])),
    ("sixth formal", |p| p.functions.iter_mut().skip(5).flatten().for_each(|f| f.formals[5] = 0)),
    ("names of variables", |p| p.variables.iter_mut().flatten().for_each(|v| v.name = None)),
    // Names leave the keys of a class where masks lose bits, and the keys outside a class where they gain some.
    ("masks", |p| p.masks = [None; 32]),
    ("masks with every class", |p| p.masks = [Some(255); 32]),
    ("array prototypes", |p| {
        p.labels.iter_mut().flatten().filter(|l| l.kind == Type::Array).for_each(|l| l.kind = Type::Plain)
    }),
    ("grant to the guest", |p| {
        replace(p, |record| match record {
            Record::Grant { v } => vec![Record::Copy { k: 0, y: v, source: 1 }],
            other => vec![other],
        })
    }),
    ("grant to the host", |p| {
        replace(p, |record| match record {
            Record::Grant { v } => vec![Record::Copy { k: 0, y: 1, source: v }],
            other => vec![other],
        })
    }),
    // The new object's prototype from the callee's property 3.
    ("prototype by new", |p| {
        replace(p, |record| match record {
            Record::New { k, y, callee, t, l, args } => vec![
                Record::Make { k, y: t, l },
                Record::Copy { k, y, source: t },
                Record::Call { k, y, callee, this: t, args },
            ],
            other => vec![other],
        })
    }),
    // The wrapper at a load: only what the object variable holds.
    ("wrapper", |p| {
        replace(p, |record| match record {
            Record::Load { k, y, object: 0, .. } => vec![Record::Copy { k, y, source: 0 }],
            other => vec![other],
        })
    }),
];

/// Where the first walk that leaves the table was found.
fn noticed(edition: Edition, change: Change) -> Option<String> {
    short_files(edition, 600).find_map(|made| {
        let program = made.program();
        let mut changed = program.clone();
        change(&mut changed);
        let error = walk(&program, &solve(&changed).table, made.seed, 2000).err()?;
        Some(format!("{}: {error}", made.name))
    })
}

#[test]
fn every_lost_rule_is_noticed() {
    for edition in Edition::BOTH {
        for (title, change) in CHANGES {
            let found = noticed(edition, change);
            println!("{edition:?} {title}: {found:?}");
            assert!(found.is_some(), "{edition:?} {title}");
        }
    }
}
