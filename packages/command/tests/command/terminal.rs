//! On a terminal: colours, and a line that says how far the work is.

use crate::folder::Folder;

/// What a terminal shows of a line of the shell, with the status behind it.
fn on_terminal(folder: &Folder, line: &str) -> String {
    folder.put("line", line);
    let ran = folder.shell("TERM=xterm script --quiet --return --command 'bash line' /dev/null; echo $?");
    ran.text().replace("\r\n", "\n")
}

#[test]
fn colours_are_for_terminals_alone() {
    let folder = Folder::with_files();
    folder.put("bad", [0]);
    assert_eq!(on_terminal(&folder, "$P judge confined"), "\x1b[32mconfined 48\x1b[0m\nguest 3\n0\n");
    assert_eq!(on_terminal(&folder, "$P judge leaks"), "\x1b[31mleaks 5 148\x1b[0m\nguest 3 5\n1\n");
    assert_eq!(on_terminal(&folder, "$P judge bad"), "\x1b[33mrefused 1 0\x1b[0m\nrecord 1 at byte 0: kind 0 is unknown\n2\n");
    for line in ["NO_COLOR=1 $P judge leaks", "TERM=dumb $P judge leaks", "$P judge leaks | cat; exit 1"] {
        assert_eq!(on_terminal(&folder, line), "leaks 5 148\nguest 3 5\n1\n", "{line}");
    }
    // An empty NO_COLOR counts as none.
    assert!(on_terminal(&folder, "NO_COLOR= $P judge leaks").starts_with('\x1b'));
}

#[test]
fn bytes_are_not_written_to_a_terminal() {
    let folder = Folder::new();
    folder.put("text", "forbid 3");
    assert_eq!(on_terminal(&folder, "$P build text"), "pezvoran: the bytes are not for a terminal: name a file with -o\n3\n");
    assert_eq!(on_terminal(&folder, "$P build text | od -An -tu1"), "   3   3\n0\n");
}

/// The first file takes long; the line is gone at the end.
#[test]
fn there_is_a_line_on_progress_where_files_take_long() {
    let folder = Folder::with_files();
    let slowly = "(cat leaks; sleep 0.7) | $P judge - confined leaks";
    let shown = on_terminal(&folder, &format!("{slowly} > out"));
    assert!(shown.contains("1 of 3 files judged") && shown.ends_with("1\n"), "{shown:?}");
    let shown = on_terminal(&folder, &format!("{slowly} > out 2> said"));
    assert_eq!((shown.as_str(), folder.get("said").len()), ("1\n", 0));
    let shown = on_terminal(&folder, "$P judge leaks confined leaks > out");
    assert_eq!(shown, "1\n");
    let shown = on_terminal(&folder, "(cat leaks; sleep 0.7) | $P judge - > out");
    assert_eq!(shown, "1\n");
}
