//! Files that are written whole or not at all, and which file is which.

use crate::source::{Input, Source};
use crate::status::Trouble;
use std::fs::{self, File, Metadata};
use std::io::{self, Write};
use std::os::unix::fs::MetadataExt;
use std::path::{Path, PathBuf};
use std::process;

/// Which regular file it is, whatever it is called.
#[derive(Clone, Copy, Debug, PartialEq, Eq)]
pub struct Identity {
    device: u64,
    number: u64,
}

impl Identity {
    pub fn of(about: &Metadata) -> Option<Identity> {
        about.is_file().then(|| Identity { device: about.dev(), number: about.ino() })
    }
}

/// Writes a file so that its bytes are all there, or what was there before: they go to a new file beside it, which then takes its name. What is no regular
/// file (a terminal, a FIFO, /dev/null) is written as it is. `inputs` must not be written to.
pub fn keep(path: &Path, bytes: &[u8], inputs: &[&Input]) -> Result<(), Trouble> {
    let shown = Source::Path(path.into());
    let about = fs::metadata(path).ok();
    let identity = about.as_ref().and_then(Identity::of);
    if identity.is_some() && inputs.iter().any(|input| input.identity == identity) {
        return Err(Trouble::of(format!("{shown}: is what is read, and would be overwritten")));
    }
    let written = match about {
        Some(about) if !about.is_file() => write_as_it_is(path, bytes),
        about => replace(path, bytes, about.as_ref()),
    };
    written.map_err(|error| Trouble::with(shown, &error))
}

fn write_as_it_is(path: &Path, bytes: &[u8]) -> io::Result<()> {
    File::options().write(true).open(path)?.write_all(bytes)
}

fn replace(path: &Path, bytes: &[u8], about: Option<&Metadata>) -> io::Result<()> {
    let path = behind_links(path)?;
    let beside = path.with_file_name(format!(".pezvoran.{}.new", process::id()));
    let file = File::create_new(&beside)?;
    let written = fill(file, bytes, about).and_then(|()| fs::rename(&beside, &path));
    if written.is_err() {
        let _ = fs::remove_file(&beside);
    }
    written
}

/// What a path leads to: a link stays a link, to a new file, also where there is none yet.
fn behind_links(path: &Path) -> io::Result<PathBuf> {
    let mut path = path.to_path_buf();
    for _ in 0..MOST_LINKS {
        match fs::read_link(&path) {
            Ok(next) => path = path.parent().unwrap_or(Path::new("")).join(next),
            Err(_) => return Ok(path),
        }
    }
    fs::metadata(&path).map(|_| path)
}

/// So many links one behind the other are followed, as by the system.
const MOST_LINKS: usize = 40;

/// The bytes, and the permissions of the file that is replaced.
fn fill(mut file: File, bytes: &[u8], about: Option<&Metadata>) -> io::Result<()> {
    if let Some(about) = about {
        file.set_permissions(about.permissions())?;
    }
    file.write_all(bytes)?;
    file.sync_all()
}
