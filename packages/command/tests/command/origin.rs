//! What the command is said to be built from: origin.rs in a small repository, and the script `build` with a cargo that does nothing.

#[path = "../../origin.rs"]
#[allow(dead_code)]
mod told;

use crate::folder::{Folder, Ran};
use std::fs;
use std::path::{Path, PathBuf};
use std::process::Command;
use told::Commit;

/// A repository with a source, committed, and the folder of the command in it.
fn repository(folder: &Folder) -> PathBuf {
    // Where git runs this in a hook, its variables name another repository.
    let lines = "unset $(git rev-parse --local-env-vars) && git init -q . && mkdir -p crates packages/command && echo 1 > crates/source && touch packages/command/Cargo.toml && git add . && \
                 git -c user.name=a -c user.email=b -c commit.gpgsign=false commit -q -m first && git tag landed";
    assert_eq!(folder.shell(lines).status, 0);
    folder.path("packages/command")
}

fn head(here: &Path) -> String {
    told::printed(here, "git", &["rev-parse", "HEAD"]).expect("a commit")
}

fn commit(name: &str, is_changed: bool) -> Commit {
    Commit { name: name.into(), is_changed }
}

#[test]
fn the_commit_is_known_with_its_changes() {
    let folder = Folder::new();
    let here = repository(&folder);
    let head = head(&here);
    assert_eq!(Commit::of(&here, None, true), commit(&head, false));
    folder.put("crates/source", "2");
    assert_eq!(Commit::of(&here, None, true), commit(&head, true));
    assert_eq!(Commit::of(&here.join(".."), None, true), commit("unknown", false));
}

#[test]
fn a_commit_that_is_given_hides_no_changes() {
    let folder = Folder::new();
    let here = repository(&folder);
    let head = head(&here);
    for name in [&head[..], &head[..9], "landed"] {
        assert_eq!(Commit::of(&here, Some(name.into()), true), commit(name, false));
    }
    assert_eq!(Commit::of(&here, Some("another".into()), true), commit("another", true));
    folder.put("crates/more", "");
    assert_eq!(Commit::of(&here, Some("landed".into()), true), commit("landed", true));
}

/// The sources beside the command tell nothing of archives from elsewhere.
#[test]
fn the_commit_of_archives_from_elsewhere_is_unknown_unless_given() {
    let folder = Folder::new();
    let here = repository(&folder);
    assert_eq!(Commit::of(&here, None, false), commit("unknown", false));
    assert_eq!(Commit::of(&here, Some("another".into()), false), commit("another", false));
}

/// A warning and no failure: dates show no more than that something may be wrong.
#[test]
fn archives_that_are_older_than_their_sources_are_warned_of() {
    let folder = Folder::new();
    let lines = "mkdir -p packages/command crates/a/src target/staticlib bin && touch -d 2001-01-02 crates/a/src/lib.rt crates.txt && \
                 touch -d 2001-01-03 target/staticlib/libpezvoran.a target/staticlib/libpezvoran_large.a && \
                 printf '#!/bin/sh\\necho cargo \"$1\"\\n' > bin/cargo && chmod +x bin/cargo";
    assert_eq!(folder.shell(lines).status, 0);
    fs::copy(Path::new(env!("CARGO_MANIFEST_DIR")).join("build"), folder.path("packages/command/build")).expect("a copy");
    let build = |library: &str| {
        let path = format!("{}:{}", folder.path("bin").display(), std::env::var("PATH").expect("a path"));
        let mut build = Command::new(folder.path("packages/command/build"));
        Ran::of(build.env("PATH", path).env("PEZVORAN_LIB_DIR", library).output().expect("it runs"))
    };
    build("").prints(0, "cargo build\n");
    assert_eq!(folder.shell("touch -d 2001-01-04 crates/a/src/lib.rt target/staticlib/libpezvoran.a").status, 0);
    let ran = build("");
    assert_eq!((ran.status, ran.text()), (0, "cargo build\n"));
    assert_eq!(
        ran.said,
        "packages/command/build: warning: crates/a/src/lib.rt is newer than target/staticlib/libpezvoran_large.a, which may not be of these sources: \
         tools/build pezvoran_large\n"
    );
    build("/elsewhere").prints(0, "cargo build\n");
}
