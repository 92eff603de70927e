//! The version, and what the command was built from (build.rs).

use pezvoran::{Edition, Small};

/// The commit of the sources, or "unknown".
pub const COMMIT: &str = env!("BUILT_COMMIT");

/// The same, and that the sources differed from it, if they did.
pub const SOURCES: &str = env!("BUILT_FROM");

/// What `rt version` printed, or "unknown".
pub const KIT: &str = env!("BUILT_KIT");

pub const SHORT: &str = env!("CARGO_PKG_VERSION");

pub const LONG: &str = concat!(
    env!("CARGO_PKG_VERSION"),
    "\ncommit ",
    env!("BUILT_FROM"),
    "\nkit ",
    env!("BUILT_KIT"),
    "\narchive SHA-256 ",
    env!("BUILT_ARCHIVE"),
    "\nlarge archive SHA-256 ",
    env!("BUILT_LARGE_ARCHIVE")
);

/// The SHA-256 of the archive that is linked for the edition.
pub fn archive_sha256<E: Edition>() -> &'static str {
    if E::LABELS == Small::LABELS {
        env!("BUILT_ARCHIVE")
    } else {
        env!("BUILT_LARGE_ARCHIVE")
    }
}

/// Whether the sources differed from the commit.
pub fn is_changed() -> bool {
    SOURCES != COMMIT
}
