//! Finds the archives, one for each edition, and links them: those in the folder that `PEZVORAN_LIB_DIR` names; where it is not set, those that
//! `tools/build` wrote in this repository; where there are none, those of an installation that pkg-config knows. Build scripts of packages that use this one
//! are told the folder (DEP_PEZVORAN_FOLDER), whether it is this repository's own (DEP_PEZVORAN_OWN, yes or no), and a hash of both archives by which they see
//! that these are still the same (DEP_PEZVORAN_HASH: the standard library's of their bytes, one after the other).

use std::env;
use std::ffi::{OsStr, OsString};
use std::fs;
use std::hash::{DefaultHasher, Hash, Hasher};
use std::path::{Path, PathBuf};
use std::process::{exit, Command};

const EDITIONS: [&str; 2] = ["pezvoran", "pezvoran_large"];

const ADVICE: &str = "\
The archives libpezvoran.a and libpezvoran_large.a are not found. One of these helps:
- in the repository of Pezvoran, run `tools/build pezvoran pezvoran_large`;
- install Pezvoran by its script `./install`, where pkg-config finds it (PKG_CONFIG_PATH);
- set PEZVORAN_LIB_DIR to the folder that has them.";

fn main() {
    match folder() {
        Ok(folder) => {
            link(&folder);
            tell(&folder);
        }
        Err(trouble) => {
            eprintln!("{trouble}");
            exit(1);
        }
    }
}

fn link(folder: &Path) {
    println!("cargo:rustc-link-search=native={}", folder.display());
    for edition in EDITIONS {
        println!("cargo:rustc-link-lib=static={edition}");
    }
    watch(folder);
}

/// For build scripts of packages that use this one.
fn tell(folder: &Path) {
    println!("cargo:folder={}", folder.display());
    println!("cargo:own={}", if folder == written() { "yes" } else { "no" });
    let mut hasher = DefaultHasher::new();
    archives(folder).for_each(|archive| fs::read(archive).unwrap_or_default().hash(&mut hasher));
    println!("cargo:hash={}", hasher.finish());
}

/// The repository that this package is in, if it is in one.
fn repository() -> PathBuf {
    Path::new(&env::var_os("CARGO_MANIFEST_DIR").expect("cargo sets it")).join("../..")
}

/// Where `tools/build` writes the archives.
fn written() -> PathBuf {
    repository().join("target/staticlib")
}

/// The folder that has the archives, or what to do.
fn folder() -> Result<PathBuf, String> {
    if let Some(folder) = given("PEZVORAN_LIB_DIR") {
        return named(folder.into());
    }
    let written = written();
    if lacking(&written).is_none() {
        return Ok(written);
    }
    let installed = installed()?.ok_or(ADVICE)?;
    if repository().join("crates.txt").exists() {
        println!("cargo:warning=target/staticlib lacks an archive: those of {} are linked", installed.display());
        watch(&written);
    }
    Ok(installed)
}

/// The folder that `PEZVORAN_LIB_DIR` names.
fn named(folder: PathBuf) -> Result<PathBuf, String> {
    if folder.is_relative() {
        return Err(format!("PEZVORAN_LIB_DIR is {}: an absolute path is wanted", folder.display()));
    }
    match lacking(&folder) {
        Some(archive) => Err(format!("there is no {}: PEZVORAN_LIB_DIR is to name the folder that has the archives", archive.display())),
        None => Ok(folder),
    }
}

/// The folder of the installation that pkg-config knows, which must be of this version; none where it knows none.
fn installed() -> Result<Option<PathBuf>, String> {
    for variable in ["PKG_CONFIG_PATH", "PKG_CONFIG_LIBDIR"] {
        println!("cargo:rerun-if-env-changed={variable}");
    }
    let Some(folder) = pkg_config("--variable=libdir").map(PathBuf::from) else { return Ok(None) };
    let version = pkg_config("--modversion").unwrap_or_default();
    let own = env::var("CARGO_PKG_VERSION").expect("cargo sets it");
    if version != own {
        return Err(format!("the archives in {} are of version {version}, and this package is {own}", folder.display()));
    }
    match lacking(&folder) {
        Some(archive) => Err(format!("there is no {}, though pkg-config knows of it: install Pezvoran again", archive.display())),
        None => Ok(Some(folder)),
    }
}

/// What pkg-config answers; none where there is no such program, or no installation.
fn pkg_config(question: &str) -> Option<String> {
    let program = given("PKG_CONFIG").unwrap_or_else(|| OsStr::new("pkg-config").into());
    let output = Command::new(program).args([question, "pezvoran"]).output().ok().filter(|output| output.status.success())?;
    String::from_utf8(output.stdout).ok().map(|line| line.trim().into()).filter(|line: &String| !line.is_empty())
}

/// The archives that a folder is to have.
fn archives(folder: &Path) -> impl Iterator<Item = PathBuf> + '_ {
    EDITIONS.iter().map(|edition| folder.join(format!("lib{edition}.a")))
}

/// The first archive that a folder lacks.
fn lacking(folder: &Path) -> Option<PathBuf> {
    archives(folder).find(|archive| !archive.is_file())
}

/// Has cargo ask again when an archive of this folder is another one.
fn watch(folder: &Path) {
    archives(folder).for_each(|archive| println!("cargo:rerun-if-changed={}", archive.display()));
}

/// A variable of the environment that is set and not empty.
fn given(name: &str) -> Option<OsString> {
    println!("cargo:rerun-if-env-changed={name}");
    env::var_os(name).filter(|value| !value.is_empty())
}
