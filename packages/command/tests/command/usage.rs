//! Words on the command line, help, version, completions and the man page.

use crate::folder::Folder;
use std::process::Command;

const PARTS: [&str; 8] = ["judge", "check", "dump", "build", "table", "cite", "completions", "man"];

#[test]
fn bad_usage_ends_with_3() {
    let folder = Folder::with_files();
    for words in [
        &[][..],
        &["bogus"],
        &["--bogus"],
        &["judge"],
        &["judge", "--bogus", "leaks"],
        &["judge", "--table"],
        &["check", "leaks"],
        &["check", "leaks", "leaks.table", "more"],
        &["dump"],
        &["dump", "leaks", "confined"],
        &["build"],
        &["build", "--json", "leaks"],
        &["table", "leaks"],
        &["table", "leaks", "leaks.table", "--holding", "256"],
        &["cite", "leaks"],
        &["completions", "tcl"],
        &["man", "more"],
    ] {
        let ran = folder.run(words);
        assert!(ran.status == 3 && ran.bytes.is_empty() && !ran.said.is_empty(), "{words:?}: {ran:?}");
    }
}

#[test]
fn each_part_has_help_with_an_example() {
    let folder = Folder::new();
    let all = folder.run(["--help"]);
    assert!(all.status == 0 && all.text().contains("Exit status: 0 confined, accepted or done; 1 leaks; 2 refused; 3 "), "{all:?}");
    for part in PARTS {
        assert!(all.text().contains(&format!("\n  {part}")), "{part}");
        let help = folder.run([part, "--help"]);
        assert!(help.status == 0 && help.text().contains("Example") && help.text().contains(&format!("pezvoran {part}")), "{part}: {help:?}");
        assert_eq!(help.text(), folder.run(["help", part]).text());
        assert_eq!(folder.run([part, "-h"]).status, 0);
    }
}

#[test]
fn the_version_names_commit_kit_and_archives() {
    let folder = Folder::new();
    folder.run(["-V"]).prints(0, &format!("pezvoran {}\n", env!("CARGO_PKG_VERSION")));
    let version = folder.run(["--version"]);
    let lines: Vec<&str> = version.text().lines().collect();
    let [first, commit, kit, archive, large] = lines[..] else { panic!("{version:?}") };
    assert_eq!(first, format!("pezvoran {}", env!("CARGO_PKG_VERSION")));
    assert!(commit.strip_prefix("commit ").is_some_and(|commit| !commit.is_empty()));
    assert!(kit.strip_prefix("kit ").is_some_and(|kit| !kit.is_empty()));
    for (line, words) in [(archive, "archive SHA-256 "), (large, "large archive SHA-256 ")] {
        assert!(line.strip_prefix(words).is_some_and(|sum| sum.len() == 64), "{line}");
    }
}

/// Where the sources are those of a repository, and nobody gave another commit.
#[test]
fn the_commit_is_that_of_the_sources() {
    let folder = Folder::new();
    let asked = |program: &str, words: &[&str]| {
        let output =
            Command::new(program).current_dir(env!("CARGO_MANIFEST_DIR")).args(words).output().ok().filter(|output| output.status.success())?;
        Some(String::from_utf8(output.stdout).expect("text").trim().to_string())
    };
    let version = folder.run(["--version"]);
    let given = |name| std::env::var_os(name).is_some();
    if asked("git", &["rev-parse", "--show-prefix"]).as_deref() == Some("packages/command/")
        && !given("PEZVORAN_COMMIT")
        && !given("PEZVORAN_LIB_DIR")
    {
        let commit = asked("git", &["rev-parse", "HEAD"]).expect("a commit");
        assert!(version.text().contains(&format!("\ncommit {commit}")), "{version:?}");
    }
    if let Some(kit) = asked("rt", &["version"]).filter(|_| !given("PEZVORAN_KIT") && !given("PEZVORAN_LIB_DIR")) {
        assert!(version.text().contains(&format!("\nkit {kit}\n")), "{version:?}");
    }
}

#[test]
fn completions_are_scripts_of_each_shell() {
    let folder = Folder::new();
    for shell in ["bash", "elvish", "fish", "powershell", "zsh"] {
        let script = folder.run(["completions", shell]);
        assert!(script.status == 0 && PARTS.iter().all(|part| script.text().contains(part)), "{shell}");
    }
    folder.shell("eval \"$($P completions bash)\" && complete -p pezvoran > /dev/null").prints(0, "");
}

#[test]
fn the_man_page_has_every_part_and_option() {
    let folder = Folder::new();
    let page = folder.run(["man"]);
    assert!(page.status == 0 && page.text().contains(".TH PEZVORAN 1"));
    for part in PARTS {
        assert!(page.text().contains(&format!(".SH {}\n", part.to_uppercase())), "{part}");
    }
    for option in ["\\-\\-large", "\\-\\-table", "\\-\\-json", "\\-\\-names", "\\-\\-unchecked", "\\-\\-holding"] {
        assert!(page.text().contains(option), "{option}");
    }
}
