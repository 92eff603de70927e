//! Where the archives come from that the command is linked with, as far as it can be told when it is built. For build.rs, and for the tests.

use std::path::Path;
use std::process::Command;

/// What the command is made of, from its folder.
pub const SOURCES: [&str; 9] =
    ["../../crates", "../../crates.txt", "../rust/src", "../rust/build.rs", "../rust/Cargo.toml", "src", "build.rs", "origin.rs", "Cargo.toml"];

/// What is not known.
pub const UNKNOWN: &str = "unknown";

/// The commit of the sources when the command was built, and whether the sources differ from it.
#[derive(Debug, PartialEq, Eq)]
pub struct Commit {
    pub name: String,
    pub is_changed: bool,
}

impl Commit {
    /// `given` comes before what git says, but hides no changes. Of archives that are not the repository's own the sources beside the command tell nothing.
    pub fn of(folder: &Path, given: Option<String>, is_own: bool) -> Commit {
        let head = head(folder);
        let is_changed =
            head.as_ref().is_some_and(|head| is_changed(folder) || given.as_ref().is_some_and(|given| is_own && !is_same(folder, given, head)));
        match given.or(head.filter(|_| is_own)) {
            Some(name) => Commit { name, is_changed },
            None => Commit { name: UNKNOWN.into(), is_changed: false },
        }
    }
}

/// The commit of the repository. In a folder of another repository it would be that one's, and is not taken.
fn head(folder: &Path) -> Option<String> {
    printed(folder, "git", &["rev-parse", "--show-prefix"]).filter(|prefix| prefix == "packages/command/")?;
    printed(folder, "git", &["rev-parse", "HEAD"])
}

fn is_changed(folder: &Path) -> bool {
    printed(folder, "git", &[&["status", "--porcelain", "--"], &SOURCES[..]].concat()).is_some()
}

/// Whether a name, such as a tag or the beginning of a hash, is that of the commit.
fn is_same(folder: &Path, name: &str, commit: &str) -> bool {
    printed(folder, "git", &["rev-parse", "--verify", "--quiet", "--end-of-options", &format!("{name}^{{commit}}")]).as_deref() == Some(commit)
}

/// What a program prints, run in the folder; none where it fails or prints nothing.
pub fn printed(folder: &Path, program: &str, words: &[&str]) -> Option<String> {
    let output = Command::new(program).current_dir(folder).args(words).output().ok().filter(|output| output.status.success())?;
    let text = String::from_utf8(output.stdout).ok()?.trim().to_string();
    (!text.is_empty()).then_some(text)
}
