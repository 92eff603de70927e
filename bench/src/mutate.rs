//! Changes to readable files, for the search: records are moved, repeated, altered, or taken from another file.

use crate::files::{some_class_key, LONGEST};
use second::generate::rekey::rekey;
use second::prng::Prng;
use second::reader::body_length;
use second::{read_in, Edition};
use std::collections::HashMap;

/// A file as its records.
pub type Records = Vec<Vec<u8>>;

/// The records of a readable file.
pub fn split(file: &[u8]) -> Records {
    let mut records = Vec::new();
    let mut rest = file;
    while let Some(&kind) = rest.first() {
        let (record, after) = rest.split_at(1 + body_length(kind).expect("the file is readable"));
        records.push(record.to_vec());
        rest = after;
    }
    records
}

/// A file of full length, readable in the edition, made from one file with a few changes; `other` lends records.
pub fn mutated(r: &mut Prng, edition: Edition, file: &[u8], other: &[u8]) -> Vec<u8> {
    let (mut records, lender) = (split(file), split(other));
    for _ in 0..r.between(1, 3) {
        let mut changed = records.clone();
        change(r, &mut changed, &lender);
        fit(r, &mut changed);
        if read_in(edition, &changed.concat()).is_ok() {
            records = changed;
        }
    }
    records.concat()
}

fn change(r: &mut Prng, records: &mut Records, lender: &Records) {
    let length = 1 << r.below(11);
    let (from, to) = range(r, records.len(), length);
    match r.below(7) {
        0 => records[from..to].reverse(),
        1 => r.shuffle(&mut records[from..to]),
        2 => {
            let block: Records = records.drain(from..to).collect();
            let at = r.below(records.len() + 1);
            records.splice(at..at, block);
        }
        3 => {
            let (first, last) = range(r, lender.len(), length);
            let lent: Records = lender[first..last].iter().filter(|record| record[0] >= 16).cloned().collect();
            replace(records, from, &lent, |_| true);
        }
        4 => {
            // Records that stand there more than once are filler: the links of a course differ from one another.
            let mut times: HashMap<Vec<u8>, usize> = HashMap::new();
            records.iter().for_each(|record| *times.entry(record.clone()).or_default() += 1);
            let record = r.pick(&[&*records, lender])[r.below(records.len().min(lender.len()))].clone();
            if record[0] >= 16 {
                replace(records, from, &vec![record; to - from], |record| times[record] > 1);
            }
        }
        5 => (from..to).for_each(|at| alter(r, records, at)),
        _ => alter(r, records, from),
    }
}

/// A range of at most so many records.
fn range(r: &mut Prng, all: usize, length: usize) -> (usize, usize) {
    let from = r.below(all);
    (from, (from + length).min(all))
}

/// Puts statements in the place of those from there on that may go; declarations stay.
fn replace(records: &mut Records, from: usize, with: &[Vec<u8>], may_go: impl Fn(&Vec<u8>) -> bool) {
    let statements = records.iter_mut().skip(from).filter(|record| record[0] >= 16 && may_go(record));
    statements.zip(with).for_each(|(record, new)| record.clone_from(new));
}

/// Gives one field of a statement the byte that another of its kind has there, or a load or store the key of a class or of all
/// names outside one.
fn alter(r: &mut Prng, records: &mut Records, at: usize) {
    if r.chance(1, 8) {
        let key = some_class_key(r);
        records[at] = rekey(&records[at], |_| key);
        return;
    }
    let other = r.below(records.len());
    if records[at][0] >= 16 && records[at][0] == records[other][0] {
        let field = r.between(1, records[at].len() - 1);
        records[at][field] = records[other][field];
    }
}

/// Takes statements out until the file is short enough, and repeats statements until it is full.
fn fit(r: &mut Prng, records: &mut Records) {
    let mut bytes: usize = records.iter().map(Vec::len).sum();
    while bytes > LONGEST {
        let at = r.below(records.len());
        if records[at][0] >= 16 {
            bytes -= records.remove(at).len();
        }
    }
    while bytes + 12 <= LONGEST {
        let record = records[r.below(records.len())].clone();
        if record[0] >= 16 {
            bytes += record.len();
            records.push(record);
        }
    }
}
