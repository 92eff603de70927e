//! Standard input and output: pipes, what is closed, what cannot be written.

use crate::folder::{confined, Folder, Ran, LEAKS, PROGRAM};
use std::io::{BufRead, BufReader, Write};
use std::process::{Command, Stdio};
use std::sync::mpsc;
use std::thread;
use std::time::Duration;

#[test]
fn standard_input_may_be_a_file_or_a_pipe() {
    let folder = Folder::with_files();
    folder.shell("$P judge - < leaks").prints(1, "leaks 5 148\nguest 3 5\n");
    folder.shell("cat leaks | $P judge -").prints(1, "leaks 5 148\nguest 3 5\n");
    folder.shell("(head -c 3 leaks; sleep 0.1; tail -c +4 leaks) | $P judge -").prints(1, "leaks 5 148\nguest 3 5\n");
    folder
        .run_with(["judge", "-", "confined"], &LEAKS)
        .prints(1, "standard input: leaks 5 148\nstandard input: guest 3 5\nconfined: confined 48\nconfined: guest 3\n");
    assert_eq!(folder.run_with(["judge", "-", "--json"], confined()).objects()[0]["file"], "-");
    folder.run_with(["dump", "-"], &[3, 3]).prints(0, "forbid l=3                                       # record 1 at byte 0\n");
    folder.run_with(["judge", "-"], &vec![3; 1 << 20]).prints(2, "refused 9 0\nthe file has more than 32768 bytes; 32768 at most are wanted\n");
    folder.run(["judge", "-", "confined", "-"]).is_trouble("- is named more than once: standard input can be read only once");
}

/// It is legal; but what feeds a pipe may have failed.
#[test]
fn an_empty_standard_input_is_judged_with_a_warning() {
    let folder = Folder::new();
    let ran = folder.shell("cat none 2> /dev/null | $P judge -");
    assert_eq!((ran.status, ran.text()), (0, "confined 45\nguest 3\n"));
    assert_eq!(
        ran.said,
        "pezvoran: standard input is empty, which is a legal statement file; did what feeds it fail?\n\
         pezvoran: standard input: forbids nothing, and is confined whatever else it says\n"
    );
}

#[test]
fn a_standard_input_that_cannot_be_read_is_not_taken_for_an_empty_one() {
    let folder = Folder::with_files();
    folder.shell("$P judge - <&-").is_trouble("standard input: is closed");
    folder.shell("$P judge - 0> written").is_trouble("standard input: Bad file descriptor");
    folder.shell("$P judge - < .").is_trouble("standard input: is a directory");
    folder.shell("$P check leaks - <&-").is_trouble("standard input: is closed");
    folder.shell("$P judge leaks <&-").prints(1, "leaks 5 148\nguest 3 5\n");
}

/// A descriptor that does not wait, as another program may leave it.
#[test]
fn input_that_comes_late_is_waited_for() {
    let folder = Folder::with_files();
    let late = "import os, subprocess, sys, time
reading, writing = os.pipe()
os.set_blocking(reading, False)
child = subprocess.Popen([sys.argv[1], 'judge', '-'], stdin=reading)
os.close(reading)
for part in open('leaks', 'rb').read()[:9], open('leaks', 'rb').read()[9:]:
    time.sleep(0.1)
    os.write(writing, part)
os.close(writing)
sys.exit(child.wait())";
    let ran = Command::new("python3").current_dir(&folder.location).args(["-c", late, PROGRAM]).output().expect("python3 runs");
    Ran::of(ran).prints(1, "leaks 5 148\nguest 3 5\n");
}

/// As other tools end in a pipe whose reader has gone, but with the status of trouble: the answer was not given.
#[test]
fn a_reader_that_goes_away_ends_the_command_quietly() {
    let folder = Folder::with_files();
    for words in [
        &["judge", "leaks"][..],
        &["judge", "--json", "leaks", "confined"],
        &["check", "leaks", "leaks.table"],
        &["dump", "leaks"],
        &["table", "leaks", "leaks.table"],
        &["completions", "bash"],
        &["man"],
        &["--help"],
        &["--version"],
    ] {
        let (reader, writer) = std::io::pipe().expect("a pipe");
        drop(reader);
        let ran = Ran::of(folder.command(words).stdout(writer).stderr(Stdio::piped()).output().expect("it runs"));
        assert_eq!((ran.status, ran.said.as_str()), (3, ""), "{words:?}");
    }
    folder.shell("$P table leaks leaks.table | head -n 1").prints(0, "S(1) 3 5\n");
}

#[test]
fn an_answer_that_cannot_be_written_is_trouble() {
    let folder = Folder::with_files();
    folder.put("text", "forbid 3");
    for words in [
        "judge leaks",
        "judge --json leaks",
        "check leaks leaks.table",
        "dump leaks",
        "build text",
        "table leaks leaks.table",
        "man",
        "completions zsh",
    ] {
        folder.shell(&format!("$P {words} > /dev/full")).is_trouble("standard output: No space left on device");
        folder.shell(&format!("$P {words} >&-")).is_trouble("standard output: is closed");
        folder.shell(&format!("$P {words} 1< confined.table")).is_trouble("standard output: Bad file descriptor");
    }
    for word in ["--help", "--version", "judge --help"] {
        assert_eq!(folder.shell(&format!("$P {word} > /dev/full")).status, 3);
        folder.shell(&format!("$P {word} >&-")).is_trouble("standard output: is closed");
    }
    // With nobody to tell, the status is what is left.
    assert_eq!(folder.shell("$P judge none 2>&-").status, 3);
    assert_eq!(folder.shell("$P judge none 2> /dev/full").status, 3);
    assert_eq!(folder.shell("$P judge --bad >&- 2>&-").status, 3);
    assert_eq!(folder.shell("$P judge leaks 2>&-").text(), "leaks 5 148\nguest 3 5\n");
}

/// Results are not kept back until the last file has been judged, which comes only when the first line has been seen.
#[test]
fn each_answer_is_written_when_it_is_known() {
    let folder = Folder::with_files();
    let mut child = folder.command(["judge", "leaks", "-"]).stdin(Stdio::piped()).stdout(Stdio::piped()).spawn().expect("it runs");
    let mut lines = BufReader::new(child.stdout.take().expect("a pipe")).lines().map(|line| line.expect("a line"));
    let mut input = child.stdin.take().expect("a pipe");
    let (seen, waits) = mpsc::channel();
    let feeding = thread::spawn(move || {
        let in_time = waits.recv_timeout(Duration::from_secs(10));
        input.write_all(confined()).expect("it is read");
        in_time
    });
    assert_eq!(lines.next().as_deref(), Some("leaks: leaks 5 148"));
    let _ = seen.send(());
    assert_eq!(lines.nth(1).as_deref(), Some("standard input: confined 48"));
    assert_eq!(feeding.join().expect("it ends"), Ok(()));
    assert_eq!(child.wait().expect("it ends").code(), Some(1));
}
