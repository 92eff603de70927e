//! `judge`.

use crate::folder::{confined, Folder, LEAKS};
use pezvoran::format::read;
use pezvoran::{Large, Small};
use std::fs;

#[test]
fn a_verdict_is_printed_as_the_program_verdict_prints_it() {
    let folder = Folder::with_files();
    folder.put("empty", "");
    for edition in [None, Some("--large")] {
        let judge = |name| folder.run(["judge", name].into_iter().chain(edition));
        judge("confined").prints(0, "confined 48\nguest 3\n");
        judge("leaks").prints(1, "leaks 5 148\nguest 3 5\n");
        judge("empty").prints_of_nothing_forbidden("empty", 0, "confined 45\nguest 3\n");
    }
}

#[test]
fn the_large_edition_has_labels_from_64_up() {
    let folder = Folder::new();
    folder.put("file", [2, 255, 1, 0, 3, 255, 5, 2, 0, 255, 8, 2, 255, 6, 2]);
    for words in [["--large", "judge", "file"], ["judge", "--large", "file"], ["judge", "file", "--large"]] {
        folder.run(words).prints(1, "leaks 255 148\nguest 3 255\n");
    }
    let refused = folder.run(["judge", "file"]);
    refused.prints(
        2,
        "refused 4 0\nrecord 1 at byte 0, label: field l is 255, which only the large edition has; a label from 5 to 63 is wanted. The large edition reads \
         this file: try --large\n",
    );
}

/// It is confined, but perhaps a translator forgot something.
#[test]
fn a_file_that_forbids_nothing_is_judged_with_a_warning() {
    let folder = Folder::with_files();
    folder.put("granted", [2, 5, 1, 0, 5, 2, 0, 255, 8, 2, 5, 6, 2]);
    folder.run(["judge", "granted"]).prints_of_nothing_forbidden("granted", 0, "confined 148\nguest 3 5\n");
    let ran = folder.run(["judge", "--json", "leaks", "granted", "confined"]);
    assert_eq!((ran.status, ran.said.as_str()), (1, "pezvoran: granted: forbids nothing, and is confined whatever else it says\n"));
    folder.put("bad", [0]);
    assert_eq!(folder.run(["judge", "bad"]).said, "");
}

/// Number and position stand first, as the program prints them; then the words of the package's reader.
#[test]
fn a_refusal_says_in_words_what_to_mend() {
    let folder = Folder::new();
    let head = [2, 5, 1, 0, 2, 9, 3, 0, 5, 2, 0, 255];
    for (bytes, first) in [
        (&[10][..], "refused 1 12"),
        (&[6], "refused 2 12"),
        (&[6, 1], "refused 3 12"),
        (&[17, 0, 2, 2, 4, 9], "refused 4 12"),
        (&[17, 0, 2, 2, 144, 5], "refused 5 12"),
        (&[2, 5, 1, 0], "refused 6 12"),
        (&[2, 6, 2, 0, 2, 8, 2, 0], "refused 7 20"),
    ] {
        let file = [&head, bytes].concat();
        folder.put("file", &file);
        let fault = read::<Small>(&file).expect_err("a fault");
        folder.run(["judge", "file"]).prints(2, &format!("{first}\n{fault}\n"));
        let fault = read::<Large>(&file).expect_err("a fault");
        folder.run(["--large", "judge", "file"]).prints(2, &format!("{first}\n{fault}\n"));
    }
    folder.put("file", [&head[..], &[17, 0, 2, 2, 4, 9]].concat());
    folder
        .run(["judge", "file"])
        .prints(2, "refused 4 12\nrecord 4 at byte 12, load: field w is 9, which is an array; a plain label from 5 up is wanted\n");
}

/// A new user's first slip.
#[test]
fn a_text_is_told_from_a_statement_file() {
    let folder = Folder::new();
    let hint = ". It looks like text: pezvoran build makes a statement file of one\n";
    folder.put("text", "# label 5 is the journal\n2 5 1 0\n");
    folder.run(["judge", "text"]).prints(2, &format!("refused 1 0\nrecord 1 at byte 0: kind 35 is unknown{hint}"));
    folder.put("text", "# label 5 is the journal\n".repeat(2000));
    folder.run(["judge", "text"]).prints(2, &format!("refused 9 0\nthe file has 50000 bytes; 32768 at most are wanted{hint}"));
    // Cut inside a character.
    folder.put("text", "é".repeat(20_000));
    folder.run(["judge", "text"]).prints(2, &format!("refused 9 0\nthe file has 40000 bytes; 32768 at most are wanted{hint}"));
    for bytes in [&[200][..], b"#\xff", b"#\xc3", b"# \x07"] {
        folder.put("file", bytes);
        assert!(!folder.run(["judge", "file"]).text().contains("looks like text"), "{bytes:?}");
    }
}

/// 9 is right as soon as a byte more than is allowed has been read.
#[test]
fn a_file_that_is_too_long_is_not_read_to_its_end() {
    let folder = Folder::new();
    folder.put("longest", [3; 32_768]);
    folder.put("longer", [3; 32_769]);
    folder.put("long", vec![3; 1 << 20]);
    folder.run(["judge", "longest"]).prints(1, "leaks 3 45\nguest 3\n");
    folder.run(["judge", "longer"]).prints(2, "refused 9 0\nthe file has 32769 bytes; 32768 at most are wanted\n");
    folder.run(["judge", "long"]).prints(2, "refused 9 0\nthe file has 1048576 bytes; 32768 at most are wanted\n");
    folder.run(["judge", "/dev/zero"]).prints(2, "refused 9 0\nthe file has more than 32768 bytes; 32768 at most are wanted\n");
}

#[test]
fn of_several_files_each_line_names_the_file_and_the_worst_status_counts() {
    let folder = Folder::with_files();
    folder.put("bad", [0]);
    folder.run(["judge", "confined", "leaks"]).prints(1, "confined: confined 48\nconfined: guest 3\nleaks: leaks 5 148\nleaks: guest 3 5\n");
    let ran = folder.run(["judge", "bad", "confined", "leaks"]);
    assert_eq!(ran.status, 2);
    assert!(ran.text().starts_with("bad: refused 1 0\nbad: record 1 at byte 0: kind 0 is unknown\nconfined: confined 48\n"));
    folder.run(["judge", "confined", "confined"]).prints(0, &"confined: confined 48\nconfined: guest 3\n".repeat(2));
    let ran = folder.run(["judge", "none", "leaks", "."]);
    assert_eq!((ran.status, ran.text()), (3, "leaks: leaks 5 148\nleaks: guest 3 5\n"));
    assert_eq!(ran.said, "pezvoran: none: No such file or directory\npezvoran: .: is a directory\n");
}

#[test]
fn json_has_an_object_a_file() {
    let folder = Folder::with_files();
    folder.put("bad", [6, 1]);
    folder.put("function", [2, 6, 2, 0]);
    let ran = folder.run(["judge", "--json", "confined", "leaks", "bad", "function", "none"]);
    assert_eq!(ran.status, 3);
    assert_eq!(
        ran.text(),
        r#"{"file":"confined","edition":"small","outcome":"confined","facts":48,"held":[3]}
{"file":"leaks","edition":"small","outcome":"leaks","facts":148,"label":5,"guest":3,"held":[3,5]}
{"file":"bad","edition":"small","outcome":"refused","number":3,"position":0,"words":"record 1 at byte 0, grant: field v is 1, which is the guest's bag; a declared variable with owner 0 is wanted","record":1,"kind":"grant","field":"v","value":1}
{"file":"function","edition":"small","outcome":"refused","number":7,"position":4,"words":"function label 6 has no function record","functions":[6]}
{"file":"none","outcome":"trouble","words":"none: No such file or directory"}
"#
    );
    assert_eq!(ran.objects().len(), 5);
    let large = folder.run(["--large", "judge", "--json", "leaks"]);
    assert_eq!((large.status, &large.objects()[0]["edition"]), (1, &"large".into()));
}

#[test]
fn a_table_is_kept_of_one_file_that_is_not_refused() {
    let folder = Folder::with_files();
    assert_eq!(folder.get("confined.table").len(), 2432 * 8);
    assert_eq!(folder.get("leaks.table").len(), 2432 * 8);
    folder.run(["judge", "--large", "leaks", "--table", "large.table"]).prints(1, "leaks 5 148\nguest 3 5\n");
    assert_eq!(folder.get("large.table").len(), 35_840 * 8);
    folder.run(["judge", "confined", "leaks", "--table", "both"]).is_trouble("--table keeps one table: give one file with it");
    folder.put("bad", [0]);
    folder.put("old", "what was there");
    assert_eq!(folder.run(["judge", "bad", "--table", "old"]).status, 2);
    assert_eq!(folder.run(["judge", "bad", "--table", "new"]).status, 2);
    assert_eq!(folder.get("old"), b"what was there");
    assert_eq!(folder.names(), ["bad", "confined", "confined.table", "large.table", "leaks", "leaks.table", "old"]);
}

/// Whatever goes wrong, the file is as it was, and nothing is left beside it.
#[test]
fn a_table_is_whole_or_not_there() {
    let folder = Folder::with_files();
    let whole = folder.get("leaks.table");
    folder.put("old", "what was there");
    folder.run(["judge", "leaks", "--table", "old"]).prints(1, "leaks 5 148\nguest 3 5\n");
    assert_eq!(folder.get("old"), whole);
    // No file of the command may grow beyond 8 kB.
    let ran = folder.shell("trap '' XFSZ; ulimit -f 8; $P judge confined --table old");
    ran.is_trouble("old: File too large");
    assert_eq!(folder.get("old"), whole);
    folder.run(["judge", "leaks", "--table", "none/table"]).is_trouble("none/table: No such file or directory");
    folder.run(["judge", "leaks", "--table", "."]).is_trouble(".: Is a directory");
    assert_eq!(folder.run(["judge", "leaks", "--table", ""]).status, 3);
    assert_eq!(folder.names(), ["confined", "confined.table", "leaks", "leaks.table", "old"]);
}

#[test]
fn a_table_goes_through_links_and_into_devices() {
    let folder = Folder::with_files();
    folder.put("kept", "");
    std::os::unix::fs::symlink("kept", folder.path("link")).expect("a link");
    folder.run(["judge", "leaks", "--table", "link"]).prints(1, "leaks 5 148\nguest 3 5\n");
    assert_eq!(folder.get("kept"), folder.get("leaks.table"));
    assert!(fs::symlink_metadata(folder.path("link")).expect("a link").is_symlink());
    folder.run(["judge", "leaks", "--table", "/dev/null"]).prints(1, "leaks 5 148\nguest 3 5\n");
    assert!(!fs::metadata("/dev/null").expect("a device").is_file());
    folder.run(["judge", "leaks", "--table", "-"]).is_trouble("--table needs a file: the table would be among the lines of the verdict");
}

#[test]
fn a_link_to_what_is_not_there_yet_stays_a_link() {
    let folder = Folder::with_files();
    fs::create_dir(folder.path("below")).expect("a folder");
    for (link, to) in [("first", "below/second"), ("below/second", "../kept"), ("round", "round"), ("nowhere", "none/kept")] {
        std::os::unix::fs::symlink(to, folder.path(link)).expect("a link");
    }
    folder.run(["judge", "leaks", "--table", "first"]).prints(1, "leaks 5 148\nguest 3 5\n");
    assert_eq!(folder.get("kept"), folder.get("leaks.table"));
    folder.run(["judge", "leaks", "--table", "round"]).is_trouble("round: Too many levels of symbolic links");
    folder.run(["judge", "leaks", "--table", "nowhere"]).is_trouble("nowhere: No such file or directory");
    for link in ["first", "below/second", "round", "nowhere"] {
        assert!(fs::symlink_metadata(folder.path(link)).expect("a link").is_symlink(), "{link}");
    }
}

#[test]
fn permissions_of_a_table_stay() {
    use std::os::unix::fs::PermissionsExt;
    let folder = Folder::with_files();
    fs::set_permissions(folder.path("leaks.table"), fs::Permissions::from_mode(0o640)).expect("permissions");
    folder.run(["judge", "leaks", "--table", "leaks.table"]);
    assert_eq!(fs::metadata(folder.path("leaks.table")).expect("a file").permissions().mode() & 0o777, 0o640);
}

#[test]
fn a_file_is_not_overwritten_by_its_own_table() {
    let folder = Folder::with_files();
    fs::hard_link(folder.path("leaks"), folder.path("same")).expect("a link");
    for name in ["leaks", "./leaks", "same"] {
        folder.run(["judge", "leaks", "--table", name]).is_trouble(&format!("{name}: is what is read, and would be overwritten"));
    }
    folder.shell("$P judge - --table leaks < leaks").is_trouble("leaks: is what is read, and would be overwritten");
    assert_eq!(folder.get("leaks"), LEAKS);
    folder.shell("$P judge leaks >> leaks").is_trouble("leaks: is standard output too, and would be written into itself");
    assert_eq!(folder.get("leaks"), LEAKS);
    assert_eq!(folder.get("confined"), confined());
}
