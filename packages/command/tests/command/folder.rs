//! What the tests share: a folder of their own, the command run in it, and small statement files.

use pezvoran::format::Kind;
use serde_json::Value;
use std::ffi::OsStr;
use std::fs;
use std::io::Write;
use std::path::{Path, PathBuf};
use std::process::{Command, Output, Stdio};
use std::sync::atomic::{AtomicUsize, Ordering};

/// Label 5, forbidden; variable 2 holds it; the guest is granted variable 2.
pub const LEAKS: [u8; 15] = [2, 5, 1, 0, 3, 5, 5, 2, 0, 255, 8, 2, 5, 6, 2];

/// The same without the grant.
pub fn confined() -> &'static [u8] {
    &LEAKS[..13]
}

pub const PROGRAM: &str = env!("CARGO_BIN_EXE_pezvoran");

/// The root of the repository.
pub fn root() -> PathBuf {
    Path::new(env!("CARGO_MANIFEST_DIR")).join("../..")
}

/// A folder in which the command is run.
pub struct Folder {
    pub location: PathBuf,
}

impl Drop for Folder {
    /// Nothing is left behind a test that passed: the gate asks after sources that no crate has.
    fn drop(&mut self) {
        if !std::thread::panicking() {
            fs::remove_dir_all(&self.location).expect("the folder is taken away");
        }
    }
}

impl Folder {
    /// An empty folder.
    pub fn new() -> Folder {
        static FOLDERS: AtomicUsize = AtomicUsize::new(0);
        let location = Path::new(env!("CARGO_TARGET_TMPDIR")).join(format!("folder-{}", FOLDERS.fetch_add(1, Ordering::Relaxed)));
        let _ = fs::remove_dir_all(&location);
        fs::create_dir_all(&location).expect("a folder");
        Folder { location }
    }

    /// With a file that is confined and one that leaks, and their tables.
    pub fn with_files() -> Folder {
        let folder = Folder::new();
        for (name, bytes) in [("confined", confined()), ("leaks", &LEAKS[..])] {
            folder.put(name, bytes);
            folder.run(["judge", name, "--table", &format!("{name}.table")]);
        }
        folder
    }

    pub fn path(&self, name: impl AsRef<Path>) -> PathBuf {
        self.location.join(name)
    }

    pub fn put(&self, name: impl AsRef<Path>, bytes: impl AsRef<[u8]>) {
        fs::write(self.path(name), bytes).expect("written");
    }

    pub fn get(&self, name: impl AsRef<Path>) -> Vec<u8> {
        fs::read(self.path(name)).expect("a file")
    }

    /// The names in the folder, hidden ones too.
    pub fn names(&self) -> Vec<String> {
        let entries = fs::read_dir(&self.location).expect("a folder").map(|entry| entry.expect("an entry").file_name());
        let mut names: Vec<String> = entries.map(|name| name.to_string_lossy().into_owned()).collect();
        names.sort();
        names
    }

    pub fn command(&self, words: impl IntoIterator<Item = impl AsRef<OsStr>>) -> Command {
        let mut command = Command::new(PROGRAM);
        command.current_dir(&self.location).args(words).stdin(Stdio::null());
        command
    }

    pub fn run(&self, words: impl IntoIterator<Item = impl AsRef<OsStr>>) -> Ran {
        Ran::of(self.command(words).output().expect("it runs"))
    }

    /// With bytes on standard input, which comes by a pipe.
    pub fn run_with(&self, words: impl IntoIterator<Item = impl AsRef<OsStr>>, bytes: &[u8]) -> Ran {
        let mut command = self.command(words);
        let mut child = command.stdin(Stdio::piped()).stdout(Stdio::piped()).stderr(Stdio::piped()).spawn().expect("it runs");
        // It may end before it has read everything.
        let _ = child.stdin.take().expect("a pipe").write_all(bytes);
        Ran::of(child.wait_with_output().expect("it ends"))
    }

    /// A line of the shell, with the command as $P.
    pub fn shell(&self, line: &str) -> Ran {
        let mut command = Command::new("bash");
        Ran::of(command.current_dir(&self.location).args(["-c", line]).env("P", PROGRAM).stdin(Stdio::null()).output().expect("bash runs"))
    }
}

/// What a run printed, and how it ended.
#[derive(Debug)]
pub struct Ran {
    pub status: i32,
    pub bytes: Vec<u8>,
    pub said: String,
}

impl Ran {
    pub fn of(output: Output) -> Ran {
        let said = String::from_utf8(output.stderr).expect("words");
        Ran { status: output.status.code().expect("it was not killed"), bytes: output.stdout, said }
    }

    pub fn text(&self) -> &str {
        std::str::from_utf8(&self.bytes).expect("text")
    }

    /// It printed exactly this, said nothing on standard error and ended so.
    #[track_caller]
    pub fn prints(&self, status: i32, text: &str) {
        assert_eq!((self.status, self.text(), self.said.as_str()), (status, text, ""));
    }

    /// It printed exactly this and ended so, and said that the file forbids nothing.
    #[track_caller]
    pub fn prints_of_nothing_forbidden(&self, name: &str, status: i32, text: &str) {
        let said = format!("pezvoran: {name}: forbids nothing, and is confined whatever else it says\n");
        assert_eq!((self.status, self.text(), self.said.as_str()), (status, text, said.as_str()));
    }

    /// It printed nothing, said exactly this line on standard error and ended with 3.
    #[track_caller]
    pub fn is_trouble(&self, line: &str) {
        assert_eq!((self.status, self.text(), self.said.as_str()), (3, "", format!("pezvoran: {line}\n").as_str()));
    }

    /// The objects of JSON, one a line.
    #[track_caller]
    pub fn objects(&self) -> Vec<Value> {
        self.text().lines().map(|line| serde_json::from_str(line).expect("an object")).collect()
    }
}

/// A number that looks random, by xorshift.
pub struct Random(pub u64);

impl Random {
    pub fn below(&mut self, bound: usize) -> usize {
        self.0 ^= self.0 << 13;
        self.0 ^= self.0 >> 7;
        self.0 ^= self.0 << 17;
        (self.0 % bound as u64) as usize
    }

    pub fn byte(&mut self) -> u8 {
        self.below(256) as u8
    }

    /// Records of all kinds with any bytes in their fields, sometimes cut short or with other bytes behind them.
    pub fn records(&mut self) -> Vec<u8> {
        let mut file = Vec::new();
        for _ in 0..self.below(30) {
            let kind = Kind::ALL[self.below(Kind::ALL.len())];
            file.push(kind.byte());
            file.extend((0..kind.body_length()).map(|_| self.byte()));
        }
        if self.below(3) == 0 {
            file.truncate(self.below(file.len() + 1));
            file.extend((0..self.below(40)).map(|_| self.byte()));
        }
        file
    }
}
