//! Prints the tables of the benchmark. The first argument is the limit for the archive on one file, in seconds; a second one is
//! the word of a section, which is then printed alone.

use bench::clingo::grounded;
use bench::compared::{compared, Compared};
use bench::files::filler::Filler;
use bench::files::lists::{self, Named, Two};
use bench::files::ordinary::ordinary;
use bench::files::worst::{worst, Shape};
use bench::files::{dense, LONGEST};
use bench::pairs::{self, Pair};
use bench::side_by_side::{self, Group};
use bench::stack::used_by;
use bench::{archive, edition, slowest, table};
use second::Edition;
use std::time::Duration;

const GRINGO_LIMIT: Duration = Duration::from_secs(60);

/// What prints a section, given the limit.
type Section = fn(Duration);

/// The sections in their order, each with its word.
const SECTIONS: [(&str, Section); 8] = [
    ("files", |limit| Edition::BOTH.into_iter().for_each(|edition| groups(edition, limit))),
    ("width", widths),
    ("keys", keys),
    ("returns", modules),
    ("profiles", profiles),
    ("clingo", |_| clingo()),
    ("stack", |_| stack()),
    ("side-by-side", eights),
];

fn main() {
    let arguments: Vec<String> = std::env::args().skip(1).collect();
    let seconds = arguments.first().map_or(10, |argument| argument.parse().expect("a number of seconds"));
    let word = arguments.get(1);
    let known = word.is_none_or(|word| SECTIONS.iter().any(|section| section.0 == word));
    assert!(known, "a section is one of {}", SECTIONS.map(|section| section.0).join(", "));
    let alone = word.map_or(String::new(), |word| format!(" {word}"));
    println!(
        "# Results\n\nPrinted by `bench/run {seconds}{alone}` on {}. See README.md for what the columns are.\n",
        processor()
    );
    for (_, section) in SECTIONS.iter().filter(|section| word.is_none_or(|word| section.0 == word)) {
        section(Duration::from_secs(seconds));
    }
}

/// The name of the machine's processor.
fn processor() -> String {
    let about = std::fs::read_to_string("/proc/cpuinfo").unwrap_or_default();
    let model = about.lines().find_map(|line| line.strip_prefix("model name")?.split_once(": "));
    model.map_or("an unknown processor".to_string(), |(_, name)| name.to_string())
}

/// A table for each group of files of an edition.
fn groups(edition: Edition, limit: Duration) {
    let section = |title: &str, files: Vec<Named>| section(edition, title, limit, files);
    // Files of the large edition take longer.
    let seeds = if edition == Edition::Small { 1..=2 } else { 1..=1 };
    section("ordinary full files", lists::ordinary_files(edition));
    if edition == Edition::Small {
        section("growth, ordinary files over 20 labels and 40 variables", lists::fixed());
    }
    section("growth, ordinary files, labels and variables rising with the size", lists::rising(edition));
    section("dense files", lists::dense_files(edition, seeds.clone()));
    section("worst-case files", lists::worst_files(edition, seeds));
    section("mazes", lists::mazes(edition));
    section("lures", lists::lures(edition));
    section("slowest files found by the search", slowest::read(edition));
}

/// A table of files, after it is known that all solvers agree on them.
fn section(edition: Edition, title: &str, limit: Duration, files: Vec<Named>) {
    println!("## {} edition: {title}\n", capital(edition::name(edition)));
    let mut rows = vec![Compared::titles()];
    for (name, file) in files {
        eprintln!("{}, {name}", edition::name(edition));
        rows.push(compared(edition, &name, &file, limit).line(limit));
    }
    table::print(&rows);
}

fn capital(word: &str) -> String {
    word[..1].to_uppercase() + &word[1..]
}

/// Full files of the small edition through the operations of both.
fn widths(limit: Duration) {
    println!("## Width: files of the small edition in both\n");
    let e = Edition::Small;
    let files = lists::ordinary_files(e)
        .into_iter()
        .chain(lists::dense_files(e, 1..=1))
        .chain(lists::worst_files(e, 1..=1))
        .chain(lists::mazes(e))
        .chain(lists::lures(e))
        .chain(slowest::read(e));
    let mut rows = vec![Pair::titles(["verdict", "verdict_large"], ["check", "check_large"])];
    for (name, file) in files {
        eprintln!("width, {name}");
        rows.push(pairs::measure(&name, Edition::BOTH.map(|edition| (edition, &file[..])), limit).line(limit));
    }
    table::print(&rows);
}

/// The same files under class keys and under outside keys.
fn keys(limit: Duration) {
    for edition in Edition::BOTH {
        let files = lists::turned_files(edition);
        twos(edition, "class keys and outside keys", ["class keys", "outside keys"], files, limit);
    }
}

/// The same files without and with returns at the top level.
fn modules(limit: Duration) {
    for edition in Edition::BOTH {
        let files = lists::modules(edition);
        twos(edition, "returns at the top level", ["without", "with returns"], files, limit);
    }
}

/// The same files without and with a profile whose class has every name, and files with guests held to half of the names.
fn profiles(limit: Duration) {
    for edition in Edition::BOTH {
        let files = lists::held_to_every_name_files(edition);
        twos(edition, "a profile with every name", ["without", "with profile"], files, limit);
        section(edition, "guests held to half of the names", limit, lists::held_to_half_files(edition));
    }
}

/// A table of files in two versions, with a word for each version.
fn twos(edition: Edition, title: &str, versions: [&str; 2], files: Vec<Two>, limit: Duration) {
    println!("## {} edition: {title}\n", capital(edition::name(edition)));
    let titles = ["verdict", "check"].map(|operation| versions.map(|version| format!("{operation}, {version}")));
    let [verdicts, checks] = titles.each_ref().map(|two| two.each_ref().map(String::as_str));
    let mut rows = vec![Pair::titles(verdicts, checks)];
    for (name, files) in files {
        eprintln!("{}, {name}, {title}", edition::name(edition));
        rows.push(pairs::measure(&name, files.each_ref().map(|file| (edition, &file[..])), limit).line(limit));
    }
    table::print(&rows);
}

/// The time of the grounder gringo on ordinary and dense files, beside that of the archive.
fn clingo() {
    println!("## Clingo\n");
    let e = Edition::Small;
    let mut rows = vec![["file", "facts", "verdict ms", "gringo ms", "gringo / verdict"].map(str::to_string).to_vec()];
    let mut files: Vec<Named> = [1, 2].map(|seed| (format!("ordinary {seed}"), ordinary(e, LONGEST, seed))).to_vec();
    files.extend([0, 21].map(|kind| (format!("dense, kind {kind}, 1"), dense::dense(e, kind, 1))));
    for (name, file) in files {
        eprintln!("{name}, gringo");
        let compared = compared(e, &name, &file, GRINGO_LIMIT);
        let grounded = grounded(&second::reader::read(&file).expect("the file is readable"), GRINGO_LIMIT);
        if let Some((found, _)) = &grounded {
            assert_eq!(found, &compared.table, "{name}: gringo");
        }
        let time = grounded.map(|(_, time)| time);
        let shown = [compared.verdict, time].map(|time| table::limited(time, GRINGO_LIMIT));
        let ratio = compared.verdict.zip(time).map_or(String::new(), |(verdict, time)| table::ratio(time, verdict));
        rows.push([&[name, table::thousands(compared.facts())], &shown[..], &[ratio]].concat());
    }
    table::print(&rows);
}

/// What the four operations use of the stack, each edition on files of its own, one that needs many passes among them.
fn stack() {
    println!("## Stack\n");
    let titles = ["file", "verdict, bytes", "check, bytes", "verdict_large, bytes", "check_large, bytes"];
    let mut rows = vec![titles.map(str::to_string).to_vec()];
    let files: [(&str, fn(Edition) -> Vec<u8>); 4] = [
        ("empty", |_| vec![]),
        ("ordinary", |e| ordinary(e, LONGEST, 1)),
        ("dense", |e| dense::dense(e, 0, 1)),
        ("worst case", |e| worst(e, Shape::Longest, Filler::Mixed, true, 1)),
    ];
    for (name, make) in files {
        let mut row = vec![name.to_string()];
        for edition in Edition::BOTH {
            let file = make(edition);
            let mut lent = vec![0; edition.table_words()];
            let verdict = used_by(|| {
                archive::verdict(edition, &file, &mut lent);
            });
            let check = used_by(|| {
                archive::check(edition, &file, &lent);
            });
            row.extend([verdict, check].map(|bytes| table::thousands(bytes as u64)));
        }
        rows.push(row);
    }
    table::print(&rows);
}

/// Eight verdicts at the same time and one after the other.
fn eights(limit: Duration) {
    let stacks = Edition::BOTH.map(|edition| table::thousands(side_by_side::stack_bytes(edition) as u64));
    println!(
        "## Eight verdicts side by side\n\nOn a machine of {} cores, each thread with a stack of {} bytes, in the large edition {}.\n",
        side_by_side::cores(),
        stacks[0],
        stacks[1]
    );
    let mut rows = vec![Group::titles()];
    for (name, calls) in lists::eights() {
        eprintln!("{}, {name}, side by side", side_by_side::editions(&calls));
        rows.push(side_by_side::measure(&name, &calls, limit).line(limit));
    }
    table::print(&rows);
}
