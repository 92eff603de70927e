//! Files with returns at the top level, and the same without them.
//!
//! A return at the top level says nothing; nor does a throw of variable 0, which is as long. So the table is the same with
//! the one in the place of the other.

use super::LONGEST;
use crate::mutate::{split, Records};
use second::generate::writer::Writer;
use second::Edition;

/// The bytes of a return, and of a call.
const RETURN: usize = 3;
const CALL: usize = 11;

/// Holds every label.
const SOURCE: u8 = 2;
/// Holds label 0 alone.
const CALLEE: u8 = 254;
/// Takes what calls of label 0 return, which is nothing.
const CAME_BACK: u8 = 255;

/// The first half of a full file whose declarations stand in front, filled up with returns at the top level: of each of its
/// variables in turn, at even distances among the statements.
pub fn module(file: &[u8]) -> Vec<u8> {
    let records = first_half(file);
    let statements = records.iter().filter(|record| record[0] >= 16).count();
    let variables: Vec<u8> = records.iter().filter(|record| record[0] == 5).map(|record| record[1]).collect();
    let returns = (LONGEST - records.concat().len()) / RETURN;
    let (mut full, mut seen, mut put) = (Writer::new(), 0, 0);
    for record in &records {
        full.put(record);
        seen += (record[0] >= 16) as usize;
        while put < returns * seen / statements {
            full.give_back(0, variables[put % variables.len()]);
            put += 1;
        }
    }
    full.bytes
}

fn first_half(file: &[u8]) -> Records {
    let mut bytes = 0;
    let within = |record: &Vec<u8>| {
        bytes += record.len();
        bytes <= LONGEST / 2
    };
    split(file).into_iter().take_while(within).collect()
}

/// The file with each call made again with label 0 as callee: no function, but its number is that of the top level too. The
/// file must leave the last two variables free.
pub fn calling_label_0(file: &[u8]) -> Vec<u8> {
    let mut changed = Writer::new();
    changed.variable(CALLEE, 0, 255).variable(CAME_BACK, 0, 255).held(CALLEE, 0);
    for mut record in split(file) {
        changed.put(&record);
        if record[0] == 21 {
            record[2..4].copy_from_slice(&[CAME_BACK, CALLEE]);
            changed.put(&record);
        }
    }
    changed.bytes
}

/// Every label goes down a chain of copies, the last link first, among calls of label 0. The whole chain is returned at the top
/// level: whoever takes this for what label 0 returns looks at every call again after each link.
pub fn chain_beside_calls(edition: Edition) -> Vec<u8> {
    let chain = 3..CALLEE;
    let mut file = Writer::new();
    file.variable(CALLEE, 0, 255).variable(CAME_BACK, 0, 255).held(CALLEE, 0).variable(SOURCE, 0, 255);
    for l in 5..=(edition.labels() - 1) as u8 {
        file.label(l, 1, 0).held(SOURCE, l);
    }
    for v in chain.clone() {
        file.variable(v, 0, 255).give_back(0, v);
    }
    let calls = (LONGEST - file.bytes.len() - 4 * chain.len()) / CALL / chain.len();
    for v in chain.rev() {
        file.copy(0, v, v - 1);
        for _ in 0..calls {
            file.call(0, CAME_BACK, CALLEE, 0, [0; 6]);
        }
    }
    file.bytes
}

/// The file with a throw of variable 0 in the place of each return at the top level.
pub fn without_returns(file: &[u8]) -> Vec<u8> {
    let mut records = split(file);
    for record in records.iter_mut().filter(|record| record[..2] == [23, 0]) {
        *record = vec![24, 0, 0];
    }
    records.concat()
}
