//! Files of all sorts: names that are no text, FIFOs, directories, what cannot be read.

use crate::folder::{confined, Folder, LEAKS};
use std::ffi::OsStr;
use std::os::unix::ffi::OsStrExt;
use std::process::Command;

#[test]
fn names_may_be_any_bytes() {
    let folder = Folder::new();
    let (spaces, bytes, lines) = (OsStr::new("a name  with spaces"), OsStr::from_bytes(b"\xff\xfe"), OsStr::new("two\nlines"));
    for name in [spaces, bytes, lines] {
        folder.put(name, LEAKS);
        folder.run([OsStr::new("judge"), name]).prints(1, "leaks 5 148\nguest 3 5\n");
        let table = [name.as_bytes(), b".table"].concat();
        let table = OsStr::from_bytes(&table);
        folder.run([OsStr::new("judge"), name, OsStr::new("--table"), table]).prints(1, "leaks 5 148\nguest 3 5\n");
        assert_eq!(folder.run([OsStr::new("check"), name, table]).status, 2);
    }
    let ran = folder.run([OsStr::new("judge"), spaces, bytes, lines]);
    assert_eq!(
        ran.text(),
        "a name  with spaces: leaks 5 148\na name  with spaces: guest 3 5\n\u{fffd}\u{fffd}: leaks 5 148\n\u{fffd}\u{fffd}: guest 3 5\n\
         two\\nlines: leaks 5 148\ntwo\\nlines: guest 3 5\n"
    );
    let objects = folder.run([OsStr::new("judge"), OsStr::new("--json"), bytes, lines]).objects();
    assert_eq!((&objects[0]["file"], &objects[1]["file"]), (&"\u{fffd}\u{fffd}".into(), &"two\nlines".into()));
}

#[test]
fn a_name_that_begins_with_a_dash_is_a_file_behind_two_dashes() {
    let folder = Folder::new();
    folder.put("--json", confined());
    folder.put("-", LEAKS);
    folder.run(["judge", "--", "--json"]).prints(0, "confined 48\nguest 3\n");
    folder.run(["judge", "./-"]).prints(1, "leaks 5 148\nguest 3 5\n");
}

#[test]
fn what_cannot_be_read_is_not_judged() {
    let folder = Folder::with_files();
    for (name, words) in [
        (".", "is a directory"),
        ("none", "No such file or directory"),
        ("", "No such file or directory"),
        ("leaks/file", "Not a directory"),
        ("/proc/self/mem", "Input/output error"),
    ] {
        for words_before in [&["judge"][..], &["dump"], &["build"], &["check", "leaks"]] {
            folder.run(words_before.iter().chain([&name])).is_trouble(&format!("{name}: {words}"));
        }
        for part in ["check", "table", "cite"] {
            folder.run([part, name, "leaks.table"]).is_trouble(&format!("{name}: {words}"));
        }
    }
}

#[test]
fn a_fifo_is_read_to_its_end() {
    let folder = Folder::with_files();
    assert!(Command::new("mkfifo").arg(folder.path("fifo")).status().expect("mkfifo runs").success());
    let slowly = "(head -c 5 leaks; sleep 0.1; tail -c +6 leaks) > fifo &";
    folder.shell(&format!("{slowly} $P judge fifo")).prints(1, "leaks 5 148\nguest 3 5\n");
    folder.shell("cat leaks.table > fifo & $P check leaks fifo; cat leaks.table > fifo & $P table leaks fifo S1").prints(
        0,
        "refused 11 5\nby the table the guest may hold label 5, which record 2 at byte 4 forbids; the file leaks, and no table of it is accepted\nS(1) 3 5\n",
    );
    let ran = folder.shell("cat fifo > copy & $P judge leaks --table fifo && exit 9; wait; cmp copy leaks.table && test -p fifo");
    ran.prints(0, "leaks 5 148\nguest 3 5\n");
}
