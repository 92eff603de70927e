//! Takes what `--version` and `cite` name: the SHA-256 of both archives that are linked; the commit and the kit from PEZVORAN_COMMIT and PEZVORAN_KIT where they
//! are set, else from git and from `rt version` if the archives are this repository's own. What cannot be found is unknown.

mod origin;

use origin::{printed, Commit, SOURCES, UNKNOWN};
use sha2::{Digest, Sha256};
use std::env;
use std::fs;
use std::hash::{DefaultHasher, Hash, Hasher};
use std::path::Path;
use std::process::exit;

/// The archives, and what is told of them.
const ARCHIVES: [(&str, &str); 2] = [("libpezvoran.a", "BUILT_ARCHIVE"), ("libpezvoran_large.a", "BUILT_LARGE_ARCHIVE")];

fn main() {
    let (here, is_own) = (Path::new("."), told("OWN") == "yes");
    let commit = Commit::of(here, given("PEZVORAN_COMMIT"), is_own);
    let kit = given("PEZVORAN_KIT").or_else(|| printed(here, "rt", &["version"]).filter(|_| is_own));
    println!("cargo:rustc-env=BUILT_COMMIT={}", commit.name);
    println!("cargo:rustc-env=BUILT_FROM={}{}", commit.name, if commit.is_changed { " with changes that are not committed" } else { "" });
    println!("cargo:rustc-env=BUILT_KIT={}", kit.as_deref().unwrap_or(UNKNOWN));
    tell_archives(Path::new(&told("FOLDER")));
    watch(here);
}

/// Tells their SHA-256. They must be what the package found when it linked them: cargo does not notice a file that another one with an older date replaces.
fn tell_archives(folder: &Path) {
    let mut hasher = DefaultHasher::new();
    for (archive, variable) in ARCHIVES {
        let path = folder.join(archive);
        let bytes = fs::read(&path).unwrap_or_else(|error| panic!("{}: {error}", path.display()));
        bytes.hash(&mut hasher);
        println!("cargo:rustc-env={variable}={}", sha256(&bytes));
        println!("cargo:rerun-if-changed={}", path.display());
    }
    if hasher.finish().to_string() != told("HASH") {
        eprintln!("the archives in {} are not those that were linked: touch them, and build again", folder.display());
        exit(1);
    }
}

/// What the build script of the package says of the archives that it links.
fn told(what: &str) -> String {
    env::var(format!("DEP_PEZVORAN_{what}")).expect("the package tells it")
}

fn sha256(bytes: &[u8]) -> String {
    Sha256::digest(bytes).iter().map(|byte| format!("{byte:02x}")).collect()
}

/// Has cargo ask again when the sources are others, or the commit is.
fn watch(here: &Path) {
    SOURCES.iter().for_each(|path| println!("cargo:rerun-if-changed={path}"));
    for file in ["HEAD", "logs/HEAD"] {
        if let Some(path) = printed(here, "git", &["rev-parse", "--git-path", file]) {
            println!("cargo:rerun-if-changed={path}");
        }
    }
}

/// A variable of the environment that is set and not empty.
fn given(name: &str) -> Option<String> {
    println!("cargo:rerun-if-env-changed={name}");
    env::var(name).ok().filter(|value| !value.is_empty())
}
