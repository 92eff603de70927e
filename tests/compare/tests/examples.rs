//! Every file in `examples`, and those that `examples/gallery` writes, print what their heads state, by the archive and by the second implementation; the
//! bytes are made by `examples/bytes`. A file of the small edition prints the same in the large one.

use compare::{edition, judged};
use pezvoran::{check, verdict, Answer, Edition, Large, Refusal, Small, Table};
use second::machine::witnessed;
use second::{read_in, report_in};
use std::path::{Path, PathBuf};
use std::process::{Command, Output};
use std::sync::atomic::{AtomicUsize, Ordering};

struct Example {
    name: String,
    text: String,
    file: Vec<u8>,
}

impl Example {
    fn of(name: String, text: String) -> Example {
        let made = bytes_of(&text);
        assert!(made.status.success(), "{name}");
        Example { name, text, file: made.stdout }
    }

    /// Whether its head says that it is of the large edition alone.
    fn is_large(&self) -> bool {
        self.text.lines().any(|line| line == "# edition: large")
    }

    fn edition(&self) -> second::Edition {
        if self.is_large() {
            edition::<Large>()
        } else {
            edition::<Small>()
        }
    }

    /// What the head states, as the program `verdict` would print it.
    fn stated(&self) -> String {
        let lines = self.text.lines().filter_map(|line| line.strip_prefix("# prints: "));
        lines.map(|line| format!("{line}\n")).collect()
    }

    /// The archive's answer and finished table, in the edition of the head.
    fn judged(&self) -> (Answer, Vec<u64>) {
        if self.is_large() {
            judged::<Large>(&self.file)
        } else {
            judged::<Small>(&self.file)
        }
    }
}

fn folder() -> PathBuf {
    Path::new(env!("CARGO_MANIFEST_DIR")).join("../../examples")
}

/// What `examples/bytes` makes of a text.
fn bytes_of(text: &str) -> Output {
    static FILES: AtomicUsize = AtomicUsize::new(0);
    let path = Path::new(env!("CARGO_TARGET_TMPDIR")).join(format!("text-{}.txt", FILES.fetch_add(1, Ordering::Relaxed)));
    std::fs::write(&path, text).expect("written");
    Command::new(folder().join("bytes")).arg(path).output().expect("examples/bytes runs")
}

/// What `examples/gallery` writes.
fn gallery(version: &str) -> Output {
    Command::new(folder().join("gallery")).arg(version).output().expect("examples/gallery runs")
}

fn examples() -> Vec<Example> {
    let entries = std::fs::read_dir(folder()).expect("examples is there").map(|entry| entry.expect("an entry").path());
    let texts = entries.filter(|path| path.extension().is_some_and(|ending| ending == "txt"));
    let kept = texts.map(|path| {
        let name = path.file_stem().expect("a name").to_string_lossy().into_owned();
        Example::of(name, std::fs::read_to_string(&path).expect("a text"))
    });
    let galleries = ["confined", "leaks"].map(|version| {
        let written = gallery(version);
        assert!(written.status.success(), "{version}");
        Example::of(format!("gallery-{version}"), String::from_utf8(written.stdout).expect("a text"))
    });
    kept.chain(galleries).collect()
}

fn prints_what_it_states<E: Edition>(example: &Example) {
    let mut table = Table::<E>::new();
    let answer = verdict(&example.file, &mut table);
    let guest: String = table.guest().map(|label| format!(" {label}")).collect();
    assert_eq!(format!("{answer}\nguest{guest}\n"), example.stated(), "{}", example.name);
    let expected = match answer {
        Answer::Leaks { label, guest, .. } => Answer::Refused(Refusal { number: 11, position: label.into(), guest: Some(guest) }),
        _ => Answer::Accepted { count: 0 },
    };
    assert_eq!(check(&example.file, &table), expected, "{}", example.name);
    assert_eq!(report_in(edition::<E>(), &example.file), example.stated(), "{}", example.name);
}

#[test]
fn each_example_prints_what_it_states() {
    for example in examples() {
        prints_what_it_states::<Large>(&example);
        if !example.is_large() {
            prints_what_it_states::<Small>(&example);
        }
    }
}

/// The newest host of request 13.
#[test]
fn the_gallery_has_200_allocation_sites() {
    for version in ["confined", "leaks"] {
        let text = String::from_utf8(gallery(version).stdout).expect("a text");
        assert_eq!(text.lines().filter(|line| line.starts_with("19 ")).count(), 200);
        let answer = judged::<Small>(&bytes_of(&text).stdout).0;
        assert!(matches!(answer, Answer::Refused(Refusal { number: 4, .. })), "the small edition reads {version}: {answer}");
    }
    for version in ["", "large"] {
        let written = gallery(version);
        assert!(!written.status.success() && written.stdout.is_empty());
    }
}

#[test]
fn each_line_is_one_record() {
    for example in examples() {
        let mut before = 0;
        for line in example.text.lines() {
            let bytes: Vec<&str> = line.split('#').next().expect("a part").split_whitespace().collect();
            if bytes.is_empty() {
                continue;
            }
            let end = before + bytes.len();
            // A prefix that ends with a whole record is refused for nothing but a function record that is still to come.
            let refusal = read_in(example.edition(), &example.file[..end]).err();
            assert!(refusal.is_none_or(|r| r.number == 7), "{}: {line}", example.name);
            let cut = read_in(example.edition(), &example.file[..end - 1]).expect_err("a cut record");
            assert_eq!((cut.number, cut.position), (2, before), "{}: {line}", example.name);
            before = end;
        }
        assert_eq!(before, example.file.len());
    }
}

#[test]
fn walks_stay_within_the_table_of_each_example() {
    for example in examples() {
        let program = read_in(example.edition(), &example.file).expect("readable");
        witnessed(&program, &example.judged().1, 0..50, 2_000).unwrap_or_else(|violation| panic!("{}: {violation}", example.name));
    }
}

/// The leaks of `adsafe-leaks`, `adsafe-profile-leaks` and `gallery-leaks` take more steps in a row than random walks find, and the alarm of `wrapper-shared`
/// is false.
#[test]
fn walks_come_to_hold_what_the_short_examples_leak() {
    let short = ["journal-leaks", "logger-leaks", "hidden-leaks", "module-leaks", "site-shared"];
    for example in examples().iter().filter(|example| short.contains(&example.name.as_str())) {
        let program = read_in(example.edition(), &example.file).expect("readable");
        let (Answer::Leaks { label, .. }, table) = example.judged() else { panic!("{} leaks", example.name) };
        let seen = witnessed(&program, &table, 0..50, 2_000).expect("within the table");
        assert!(example.edition().row(&seen, 1).has(label), "{}", example.name);
    }
}

/// The verdict on an example with one record changed.
fn changed_verdict(examples: &[Example], name: &str, record: &str, changed: &str) -> Answer {
    let example = examples.iter().find(|example| example.name == name).expect("an example");
    let lines = example.text.lines().map(|line| if line.split('#').next().expect("a part").trim() == record { changed } else { line });
    let text = lines.collect::<Vec<_>>().join("\n");
    assert!(text.contains(changed), "{name} has the record {record}");
    Example::of(format!("{name} with {changed}"), text).judged().0
}

/// The confined examples hang on what their heads speak of.
#[test]
fn one_changed_record_makes_a_confined_example_leak() {
    let changes = [
        ("journal-confined", "21 7 0 7 0 6 0 0 0 0 0", "21 7 0 7 2 6 0 0 0 0 0"), // the listener has the journal as this
        ("logger-confined", "18 8 2 129 11", "18 8 2 128 11"),                    // store takes every name
        ("sealer-confined", "17 0 8 4 4 18", "17 0 8 4 5 18"),                    // the API has unseal
        ("mint-confined", "23 17 26", "23 17 17"),                                // getDecr returns decr, not its box
        ("mint-confined", "17 18 29 28 8 32", "17 18 29 28 8 31"),                // src.getDecr and brand.seal share a wrapper
        ("adsafe-confined", "18 8 7 130 15", "18 8 7 128 15"),                    // lib takes every name
        ("adsafe-profile-confined", "18 8 6 130 15", "18 8 6 128 15"),            // lib takes every name
        ("adsafe-profile-confined", "9 2", "9 0"),                                // guests may name every property
        ("adsafe-profile-confined", "1 8 1", "1 8 5"),                            // ___nodes___ is a safe name
        ("module-confined", "23 0 8", "23 7 8"),                                  // the return stands in note
        ("module-confined", "6 4", "6 8"),                                        // the guest is granted exports
        ("hidden-confined", "1 5 3", "1 5 1"),                                    // ___add___ is not on the list
        ("hidden-confined", "1 4 3", "1 4 1"),                                    // ___journal___ is not on the list
        ("hidden-confined", "17 8 11 3 137 15", "17 8 11 3 128 15"),              // get takes every name
        ("hidden-confined", "18 9 3 137 13", "18 9 3 128 13"),                    // set takes every name
        ("wrapper-apart", "17 7 10 8 6 11", "17 7 10 8 6 10"),                    // both loads share a wrapper
        ("site-apart", "21 0 4 6 0 0 0 0 0 0 0", "21 0 4 2 0 0 0 0 0 0 0"),       // both calls share a helper
        ("gallery-confined", "21 8 0 6 0 5 0 0 0 0 0", "21 8 0 6 206 5 0 0 0 0 0"), // the listener has the journal as this
    ];
    let examples = examples();
    for (name, record, changed) in changes {
        let answer = changed_verdict(&examples, name, record, changed);
        let journal = if name.starts_with("gallery") { 208 } else { 5 };
        assert!(matches!(answer, Answer::Leaks { label, .. } if label == journal), "{name} with {changed}: {answer}");
    }
}

#[test]
fn loads_from_what_stays_with_the_host_may_share_a_wrapper() {
    let answer = changed_verdict(&examples(), "mint-confined", "17 18 31 14 5 33", "17 18 31 14 5 31");
    assert!(matches!(answer, Answer::Confined { .. }), "{answer}");
}

#[test]
fn bytes_refuses_what_is_no_byte() {
    for (text, good) in [("0 255 # 256", true), ("", true), ("256", false), ("1000", false), ("-1", false), ("0x1", false), ("3 3 x", false)] {
        let made = bytes_of(text);
        assert_eq!(made.status.success(), good, "{text}");
        assert!(good || made.stdout.is_empty(), "{text}");
    }
}
