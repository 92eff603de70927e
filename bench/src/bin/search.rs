//! Searches for slow files: five lines, each from one of the slowest files known, are changed at random, and a line goes on
//! with the changed file where that is slower. Arguments: seconds, `archive` or `work` (what is to be great), seed, and
//! `small` or `large`, the edition.
//!
//! By `archive` a file is as slow as the archive's verdict; by `work` as the work of the counted passes says, which is the same on
//! a busy machine. What is found is written to the folder `slowest`, which the search also starts from.

use bench::archive::measured;
use bench::edition::named;
use bench::files::filler::{Filler, FILLERS};
use bench::files::lists::{lures, mazes, turned_files};
use bench::files::worst::{worst, SHAPES};
use bench::{mutate::mutated, passes, slowest};
use second::prng::Prng;
use second::{read_in, Edition};
use std::time::{Duration, Instant};

const LINES: usize = 5;
const LOOKS: usize = 3;
/// A file that takes longer is slow enough: the search does not start from it, and what it makes of others may end there.
const LIMIT: Duration = Duration::from_secs(5);

fn main() {
    let arguments: Vec<String> = std::env::args().skip(1).collect();
    let number = |i: usize, otherwise: u64| arguments.get(i).map_or(otherwise, |text| text.parse().expect("a number"));
    let (time, seed) = (Duration::from_secs(number(0, 300)), number(2, 1));
    let by_work = arguments.get(1).is_some_and(|objective| objective == "work");
    let edition = arguments.get(3).map_or(Edition::Small, |name| named(name).expect("an edition"));
    let slowness = |file: &[u8]| if by_work { work(edition, file) } else { nanoseconds(edition, file) };

    let (mut r, start) = (Prng::new(seed), Instant::now());
    let known = starts(edition, seed).into_iter();
    let mut lines: Vec<(u64, Vec<u8>)> = known.filter_map(|file| Some((slowness(&file)?, file))).collect();
    lines.sort_by_key(|line| std::cmp::Reverse(line.0));
    lines.truncate(LINES);
    for line in &mut lines {
        line.0 = line.0.min(slowness(&line.1).unwrap_or(u64::MAX));
    }
    show(start, &lines);
    while start.elapsed() < time {
        let (line, other) = (r.below(LINES), r.below(LINES));
        let changed = mutated(&mut r, edition, &lines[line].1, &lines[other].1);
        // A time may be long because the machine is busy: what seems slower is looked at again.
        let slow = (0..LOOKS).map(|_| slowness(&changed).unwrap_or(u64::MAX)).take_while(|&slow| slow > lines[line].0);
        let looks: Vec<u64> = slow.collect();
        if looks.len() == LOOKS {
            lines[line] = (looks.into_iter().min().expect("there are some"), changed);
            show(start, &lines);
        }
    }
    lines.sort_by_key(|line| std::cmp::Reverse(line.0));
    slowest::write(edition, lines.into_iter().map(|line| line.1));
}

fn show(start: Instant, lines: &[(u64, Vec<u8>)]) {
    println!("{:>5} s: {:?}", start.elapsed().as_secs(), lines.iter().map(|line| line.0).collect::<Vec<_>>());
}

/// The files of the last search, lures and mazes, files under outside keys, and courses of every shape with every filler.
fn starts(edition: Edition, seed: u64) -> Vec<Vec<u8>> {
    let known = slowest::read(edition).into_iter().chain(lures(edition)).chain(mazes(edition));
    let outside = turned_files(edition).into_iter().map(|(_, [_, outside])| outside);
    let mut files: Vec<Vec<u8>> = known.map(|(_, file)| file).chain(outside).collect();
    for shape in SHAPES {
        files
            .extend(FILLERS.into_iter().chain([Filler::Mixed]).map(|filler| worst(edition, shape, filler, true, seed)));
    }
    files
}

/// None over the limit, as in the next.
fn nanoseconds(edition: Edition, file: &[u8]) -> Option<u64> {
    let (_, verdict) = measured(edition, file, &vec![0; edition.table_words()], LIMIT);
    verdict.map(|verdict| verdict.time.as_nanos() as u64)
}

fn work(edition: Edition, file: &[u8]) -> Option<u64> {
    let counted = passes::count(&read_in(edition, file).expect("the file is readable"), LIMIT);
    counted.map(|(count, _)| count.work)
}
