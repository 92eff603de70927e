//! The files of each group, with their names, in both editions.

use super::filler::{Filler, FILLERS};
use super::maze::{Maze, Order, Rest, ORDERS};
use super::module::{calling_label_0, chain_beside_calls, module, without_returns};
use super::ordinary::{ordinary, ordinary_over};
use super::profiled::{held_to_every_name, held_to_half};
use super::turned::{turned, ADDED};
use super::worst::{worst, Shape, SHAPES};
use super::{dense, LONGEST};
use second::Edition;
use std::ops::RangeInclusive;

pub type Named = (String, Vec<u8>);

/// Two files with the same table: under class keys and under outside keys, without and with returns at the top level, or without and with a profile.
pub type Two = (String, [Vec<u8>; 2]);

/// A file, and the edition that it is given to.
pub type Call = (Edition, Vec<u8>);

/// In kB, for the groups that grow.
const SIZES: [usize; 6] = [1, 2, 4, 8, 16, 32];

pub fn ordinary_files(edition: Edition) -> Vec<Named> {
    (1..=5).map(|seed| (format!("ordinary {seed}"), ordinary(edition, LONGEST, seed))).collect()
}

/// Ordinary files over the same few labels and variables; both editions read them.
pub fn fixed() -> Vec<Named> {
    SIZES.map(|size| (format!("{size} kB"), ordinary_over(20, 40, 1024 * size, 6))).to_vec()
}

/// Ordinary files with labels and variables that rise with the size.
pub fn rising(edition: Edition) -> Vec<Named> {
    SIZES.map(|size| (format!("{size} kB"), ordinary(edition, 1024 * size, 6))).to_vec()
}

/// Every kind of dense file, with each of the seeds.
pub fn dense_files(edition: Edition, seeds: RangeInclusive<u64>) -> Vec<Named> {
    let named = |kind: u8, seed| (format!("dense, kind {kind}, {seed}"), dense::dense(edition, kind, seed));
    dense::KINDS.into_iter().flat_map(|kind| seeds.clone().map(move |seed| named(kind, seed))).collect()
}

/// Dense files full of loads and of stores, and lures, each under class keys and under outside keys.
pub fn turned_files(edition: Edition) -> Vec<Two> {
    let dense = [17, 18].map(|kind| (format!("dense, kind {kind}"), dense::dense_under_class_keys(edition, kind, 1)));
    let lures = maze(edition, LONGEST - ADDED, 205, 8, Order::Backwards, Rest::Lures);
    let both = |(name, file): Named| (name, [file.clone(), turned(&file)]);
    dense.into_iter().chain([lures]).map(both).collect()
}

/// Ordinary files, one of them with calls of label 0, dense files, courses, and a chain beside calls of label 0, each without and with returns at the
/// top level.
pub fn modules(edition: Edition) -> Vec<Two> {
    let mut files = Vec::new();
    for seed in [1, 2] {
        files.push((format!("ordinary {seed}"), module(&ordinary(edition, LONGEST, seed))));
    }
    let two_left = ordinary_over(edition.labels() - 5, 252, LONGEST, 3);
    files.push(("ordinary 3, label 0 called".to_string(), module(&calling_label_0(&two_left))));
    for kind in [0, 21] {
        files.push((format!("dense, kind {kind}"), module(&dense::dense(edition, kind, 1))));
    }
    for shape in [Shape::Calls, Shape::Returns, Shape::Longest] {
        files.push((format!("{shape:?}").to_lowercase(), worst(edition, shape, Filler::TopReturns, true, 1)));
    }
    files.push(("a chain beside calls of label 0".to_string(), chain_beside_calls(edition)));
    files.into_iter().map(|(name, file)| (name, [without_returns(&file), file])).collect()
}

/// Ordinary files, dense ones, a course and lures.
fn some(edition: Edition) -> Vec<Named> {
    let dense = dense_files(edition, 1..=1).into_iter().take(3);
    let course = ("longest".to_string(), worst(edition, Shape::Longest, Filler::Mixed, true, 1));
    let lures = lures(edition).into_iter().take(1).map(|(name, file)| (format!("lures, {name}"), file));
    ordinary_files(edition).into_iter().take(2).chain(dense).chain([course]).chain(lures).collect()
}

/// Files without and with a profile whose class has every name.
pub fn held_to_every_name_files(edition: Edition) -> Vec<Two> {
    some(edition).into_iter().map(|(name, file)| (name, held_to_every_name(&file))).collect()
}

/// The same files with guests held to half of the names.
pub fn held_to_half_files(edition: Edition) -> Vec<Named> {
    some(edition).into_iter().map(|(name, file)| (name, held_to_half(&file))).collect()
}

/// Every shape with mixed filler and each of the seeds, and the longest course with every filler, idle ones in the small edition alone.
pub fn worst_files(edition: Edition, seeds: RangeInclusive<u64>) -> Vec<Named> {
    let mut files = Vec::new();
    let mut put = |shape: Shape, filler: Filler, watching: bool, seed: u64| {
        let name = format!("{shape:?}, {} {filler:?}, {seed}", if watching { "watching" } else { "idle" });
        files.push((name.to_lowercase(), worst(edition, shape, filler, watching, seed)));
    };
    for shape in SHAPES {
        for seed in seeds.clone() {
            put(shape, Filler::Mixed, true, seed);
        }
    }
    put(Shape::Properties, Filler::Loads, true, 1);
    put(Shape::Longest, Filler::Mixed, false, 1);
    for filler in FILLERS {
        put(Shape::Longest, filler, true, 1);
        if edition == Edition::Small {
            put(Shape::Longest, filler, false, 1);
        }
    }
    files
}

/// Mazes of few long ways and of many short ones in every order, alone and with sightseers, smaller ones, and those with doors.
pub fn mazes(edition: Edition) -> Vec<Named> {
    let alone = |variables, ways, order| maze(edition, LONGEST, variables, ways, order, Rest::Nothing);
    let seen = |size, variables, ways| maze(edition, size, variables, ways, Order::Backwards, Rest::Sightseers);
    let long = ORDERS.map(|order| alone(251, 18, order));
    let short = [(160, 30), (100, 18), (50, 10)].map(|(variables, ways)| alone(variables, ways, Order::Backwards));
    let full = [seen(LONGEST / 2, 100, 12), seen(LONGEST, 251, 9), seen(LONGEST, 160, 15)];
    long.into_iter().chain(short).chain(full).chain(through_doors(edition)).collect()
}

/// Mazes with doors, by calls, returns and throws, with several numbers of ways: about as many variables as make the most steps.
fn through_doors(edition: Edition) -> Vec<Named> {
    let small = edition == Edition::Small;
    let of =
        |ways, rest, few, many| maze(edition, LONGEST, if small { few } else { many }, ways, Order::Backwards, rest);
    let all = [(Rest::Relays, 56, 110), (Rest::Returns, 29, 83), (Rest::Throws, 29, 123)];
    all.into_iter().flat_map(|(rest, few, many)| [9, 18, 28].map(|ways| of(ways, rest, few, many))).collect()
}

/// Lures beside ways of several numbers, orders and lengths, and prims in their place, as many variables as there are labels for.
pub fn lures(edition: Edition) -> Vec<Named> {
    let of = |size, variables, ways, order| maze(edition, size, variables, ways, order, Rest::Lures);
    let orders = ORDERS.map(|order| of(LONGEST, 205, 8, order));
    let others = [(LONGEST, 205, 4), (LONGEST, 100, 8), (LONGEST / 2, 100, 8), (LONGEST / 4, 20, 4)];
    let others = others.map(|(size, variables, ways)| of(size, variables, ways, Order::Backwards));
    let variables = if edition == Edition::Small { 70 } else { 150 };
    let prims = [4, 8].map(|ways| maze(edition, LONGEST, variables, ways, Order::Backwards, Rest::Prims));
    orders.into_iter().chain(others).chain(prims).collect()
}

/// Eight files of each group in each edition, ordinary ones with eight seeds, of the others the first of their lists; and four
/// ordinary ones of each edition together.
pub fn eights() -> Vec<(String, Vec<Call>)> {
    let some_ordinary = |edition, seeds: RangeInclusive<u64>| {
        seeds.map(|seed| (edition, ordinary(edition, LONGEST, seed))).collect::<Vec<Call>>()
    };
    let mut eights = Vec::new();
    for edition in Edition::BOTH {
        let first = |files: Vec<Named>| files.into_iter().take(8).map(|(_, file)| (edition, file)).collect();
        eights.push(("ordinary".to_string(), some_ordinary(edition, 1..=8)));
        eights.push(("dense".to_string(), first(dense_files(edition, 1..=2))));
        eights.push(("worst case".to_string(), first(worst_files(edition, 1..=1))));
        eights.push(("mazes".to_string(), first(mazes(edition))));
    }
    let mixed = Edition::BOTH.map(|edition| some_ordinary(edition, 1..=4)).concat();
    eights.push(("ordinary, four of each edition".to_string(), mixed));
    eights
}

fn maze(edition: Edition, size: usize, variables: usize, ways: usize, order: Order, rest: Rest) -> Named {
    let filled = match rest {
        Rest::Nothing => String::new(),
        Rest::Relays | Rest::Returns | Rest::Throws => format!(", {rest:?}"),
        _ => format!(", {rest:?} up to {} kB", size / 1024),
    };
    let name = format!("{variables} variables, {ways} ways {order:?}{filled}");
    (name.to_lowercase().replace("kb", "kB"), Maze { size, variables, ways, order, rest }.file(edition, 1))
}
