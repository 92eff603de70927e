//! Generator (d), second part: every byte value in every field of every kind, and files about the greatest size.

use super::rekey::rekey;
use super::relabel::{identity, relabel, Map};
use super::writer::Writer;
use super::{title, Named};
use crate::edition::Edition;
use crate::prng::Prng;

pub const KINDS: [u8; 20] = [1, 2, 3, 4, 5, 6, 7, 8, 9, 16, 17, 18, 19, 20, 21, 22, 23, 24, 25, 26];

/// Byte values on both sides of the borders; those of words in the large edition only come last.
const BORDERS: [u8; 30] = [
    0, 1, 2, 3, 4, 5, 6, 7, 8, 9, 10, 11, 12, 13, 30, 31, 32, 63, 64, 127, 128, 135, 136, 143, 144, 200, 254, 255, 191,
    192,
];
const LARGE_BORDERS: usize = 2;

/// Keys on both sides of the borders, and one of each sort within them.
pub const KEY_BORDERS: [u8; 10] = [31, 32, 127, 128, 129, 135, 136, 137, 143, 144];

/// Classes and bytes beyond them.
pub const CLASS_BORDERS: [u8; 8] = [0, 1, 3, 6, 7, 8, 9, 255];

pub fn border_bytes(edition: Edition) -> &'static [u8] {
    match edition {
        Edition::Small => &BORDERS[..BORDERS.len() - LARGE_BORDERS],
        Edition::Large => &BORDERS,
    }
}

/// Where the labels 5 to 12 of the files below stand in the edition: in the large one on both sides of the borders of words.
pub fn border_labels(edition: Edition) -> Map {
    let mut map = identity();
    if edition == Edition::Large {
        map[5..=12].copy_from_slice(&[63, 64, 127, 128, 191, 192, 254, 255]);
    }
    map
}

/// Declarations that every good record of `good` finds: labels 5 to 12, variables 2 to 6, function records 6 and 9.
fn preface(edition: Edition) -> Writer {
    let mut w = Writer::new();
    w.label(5, 1, 0).label(6, 2, 0).label(7, 3, 0).label(8, 1, 1).label(9, 2, 1).label(10, 3, 1).label(12, 2, 0);
    w.variable(2, 0, 255).variable(3, 0, 4).variable(4, 6, 255).variable(5, 0, 31).variable(6, 9, 255);
    w.name(9, 3).function(6, 4, [4, 0, 2, 3, 0, 0]).function(9, 0, [0; 6]);
    Writer { bytes: relabel(&w.bytes, &border_labels(edition)) }
}

/// A good record of the kind, after the preface.
fn good(edition: Edition, kind: u8) -> Vec<u8> {
    let body: &[u8] = match kind {
        1 => &[10, 129],
        2 => &[11, 1, 1],
        3 => &[5],
        4 => &[12, 2, 3, 4, 5, 6, 0, 0],
        5 => &[7, 0, 6],
        6 => &[2],
        7 => &[5, 1, 7],
        8 => &[3, 6],
        9 => &[1],
        16 => &[6, 4, 2],
        17 => &[0, 3, 4, 129, 8],
        18 => &[9, 2, 137, 6],
        19 => &[0, 2, 7],
        20 => &[6, 5, 9, 5],
        21 => &[0, 2, 3, 4, 5, 6, 0, 2, 3, 4],
        22 => &[6, 0, 3, 4, 5, 6, 0, 2, 3, 4, 5],
        23 => &[6, 4],
        24 => &[0, 2],
        25 => &[9, 6],
        _ => &[6, 4],
    };
    relabel(&[&[kind], body].concat(), &border_labels(edition))
}

/// The function record that the preface leaves out.
fn due(edition: Edition, w: &mut Writer) -> &mut Writer {
    w.function(border_labels(edition)[12], 0, [0; 6])
}

fn between(edition: Edition, record: &[u8], with_function: bool) -> Vec<u8> {
    let mut w = preface(edition);
    w.put(record);
    if with_function && record[0] != 4 {
        due(edition, &mut w);
    }
    w.bytes
}

/// Makes every file of a good preface and one record of any kind with one field set to any of the 256 bytes, cut anywhere; the value of a return
/// also at the top level, and a profile also where one stands.
pub fn edges_in(edition: Edition) -> Vec<Named> {
    let mut files = Vec::new();
    for kind in 0..=255 {
        files.push((format!("edge-kind-{kind}"), between(edition, &[kind], false)));
    }
    for kind in KINDS {
        let record = good(edition, kind);
        files.push((format!("edge-{kind}-due"), between(edition, &record, false)));
        for field in 1..record.len() {
            files.push((format!("edge-{kind}-cut-{field}"), between(edition, &record[..field], false)));
            for value in 0..=255 {
                let mut record = record.clone();
                record[field] = value;
                files.push((format!("edge-{kind}-{field}-{value}"), between(edition, &record, true)));
            }
        }
    }
    for value in 0..=255 {
        files.push((format!("edge-23-2-{value}-top"), between(edition, &[23, 0, value], true)));
        files.push((format!("edge-9-1-{value}-again"), between(edition, &[9, 1, 9, value], true)));
    }
    files
}

/// Makes a good preface and one to three records of any kind with some fields set to edge values, at times cut short.
pub fn edge_mix_in(edition: Edition, seed: u64) -> Named {
    let mut r = Prng::new(seed.wrapping_mul(19).wrapping_add(0xE));
    let mut w = if r.chance(1, 20) { Writer::new() } else { preface(edition) };
    for _ in 0..r.between(1, 3) {
        let mut record = good(edition, r.pick(&KINDS));
        if record[0] == 23 && r.chance(1, 2) {
            record[1] = 0;
        }
        for _ in 0..r.below(4) {
            let field = r.below(record.len());
            if field > 0 || r.chance(1, 10) {
                record[field] = r.pick(border_bytes(edition));
            }
        }
        w.put(&rekey(&record, |key| if r.chance(1, 2) { r.pick(&KEY_BORDERS) } else { key }));
    }
    if r.chance(1, 2) {
        due(edition, &mut w);
    }
    if r.chance(1, 10) {
        let shorter = w.bytes.len() - r.below(9).min(w.bytes.len());
        w.bytes.truncate(shorter);
    }
    (title(edition, "edge-mix", seed), w.bytes)
}

/// Makes files of 32,767 to 32,769 bytes and more: readable ones, bad ones, and random ones filled up.
pub fn sizes_in(edition: Edition) -> Vec<Named> {
    let mut files = Vec::new();
    for length in [32_766, 32_767, 32_768, 32_769, 32_770, 40_000, 65_536] {
        let mut filled = Writer::new();
        filled.fill(length);
        files.push((format!("size-{length}-filled"), filled.bytes));
        files.push((format!("size-{length}-zeros"), vec![0; length]));
        files.push((format!("size-{length}-forbids"), [3, 3].repeat(length.div_ceil(2))[..length].to_vec()));
        let mut good = preface(edition);
        due(edition, &mut good).grant(2).fill(length);
        files.push((format!("size-{length}-good"), good.bytes));
    }
    files
}
