//! `check` and `table`, and tables that another program keeps.

use crate::folder::{root, Folder, Ran};
use std::path::PathBuf;
use std::process::Command;
use std::sync::OnceLock;

#[test]
fn the_check_accepts_the_table_of_a_confined_file() {
    let folder = Folder::with_files();
    folder.run(["check", "confined", "confined.table"]).prints(0, "accepted\n");
    folder.run(["judge", "--large", "confined", "--table", "large.table"]);
    folder.run(["check", "--large", "confined", "large.table"]).prints(0, "accepted\n");
    let object = r#"{"file":"confined","table":"confined.table","edition":"small","outcome":"accepted"}"#;
    folder.run(["check", "--json", "confined", "confined.table"]).prints(0, &format!("{object}\n"));
}

#[test]
fn the_check_says_which_forbidden_label_the_guest_may_hold() {
    let folder = Folder::with_files();
    let held = "refused 11 5\nby the table the guest may hold label 5, which record 2 at byte 4 forbids";
    folder.run(["check", "leaks", "leaks.table"]).prints(2, &format!("{held}; the file leaks, and no table of it is accepted\n"));
    folder.run(["check", "confined", "leaks.table"]).prints(2, &format!("{held}; the finished table is another, and is accepted\n"));
    let object = &folder.run(["check", "--json", "leaks", "leaks.table"]).objects()[0];
    assert_eq!((&object["number"], &object["position"], &object["label"], &object["guest"]), (&11.into(), &5.into(), &5.into(), &3.into()));
}

/// The file without the grant has fewer facts: its table lacks what the guest holds in the other.
#[test]
fn the_check_names_the_row_and_a_label_that_it_lacks() {
    let folder = Folder::with_files();
    let lacks = "refused 10 1\nrow 1 is S(1): it lacks label 5, which the finished table has there\n";
    folder.run(["check", "leaks", "confined.table"]).prints(2, lacks);
    let mut table = folder.get("confined.table");
    table[8 * 355] = 0;
    folder.put("without", &table);
    let lacks = "refused 10 355\nrow 355 is H(3,3): it lacks label 3, which the finished table has there\n";
    folder.run(["check", "confined", "without"]).prints(2, lacks);
    let object = &folder.run(["check", "--json", "confined", "without"]).objects()[0];
    assert_eq!((&object["position"], &object["row"], &object["lacks"]), (&355.into(), &"H(3,3)".into(), &3.into()));
}

/// A label of the finished table of the large edition, beyond the first word of its row.
#[test]
fn rows_of_the_large_edition_are_named_too() {
    let folder = Folder::new();
    folder.put("file", [2, 200, 1, 0, 3, 200, 5, 2, 0, 255, 8, 2, 200]);
    folder.run(["--large", "judge", "file", "--table", "table"]).prints(0, "confined 48\nguest 3\n");
    let mut table = folder.get("table");
    table[8 * 4 * (8448 + 200)..][..32].fill(0);
    folder.put("table", &table);
    folder
        .run(["--large", "check", "file", "table"])
        .prints(2, "refused 10 8648\nrow 8648 is P(200): it lacks label 1, which the finished table has there\n");
}

/// What a row lacks may follow from facts that the finished table has not. A label is named only if it can be shown to be lacking.
#[test]
fn what_follows_from_more_than_the_finished_table_is_told_apart() {
    let folder = Folder::new();
    // Labels 5 and 6, variables 2 to 4; variable 3 gets what 2 has, and 4 what 3 has.
    folder.put("file", [3, 0, 2, 5, 1, 0, 2, 6, 1, 0, 5, 2, 0, 255, 5, 3, 0, 255, 5, 4, 0, 255, 16, 0, 3, 2, 16, 0, 4, 3]);
    folder.run(["judge", "file", "--table", "finished"]);
    let with = |labels: u8| {
        let mut table = folder.get("finished");
        table[8 * 2] = labels;
        folder.put("table", &table);
        folder.run(["check", "file", "table"])
    };
    with(1 << 5).prints(
        2,
        "refused 10 3\nrow 3 is S(3): it lacks label 5, which follows from what the table holds beyond the finished one, such as label 5 in S(2)\n",
    );
    with(1 << 5 | 1 << 6).prints(
        2,
        "refused 10 3\nrow 3 is S(3): it lacks a label that follows from what the table holds beyond the finished one, such as label 5 in S(2)\n",
    );
    // A label that is not declared counts as absent.
    with(1 << 7).prints(0, "accepted\n");
}

#[test]
fn a_table_of_another_length_is_refused_or_no_table() {
    let folder = Folder::with_files();
    let table = folder.get("confined.table");
    for words in [0, 1, 2431] {
        folder.put("short", &table[..8 * words]);
        folder
            .run(["check", "confined", "short"])
            .prints(2, &format!("refused 8 0\nthe table has {words} words; a full one of the small edition has 2432\n"));
    }
    folder.run(["--large", "check", "confined", "confined.table"]).prints(
        2,
        "refused 8 0\nthe table has 2432 words; a full one of the large edition has 35840. It is as long as a table of the small edition: try without --large\n",
    );
    folder.put("odd", &table[1..]);
    folder
        .run(["check", "confined", "odd"])
        .is_trouble("odd: is no table of the small edition: it has 19455 bytes, which are no whole words of 8; a full one has 19456");
    folder.put("long", [&table[..], &[0; 8]].concat());
    folder.run(["check", "confined", "long"]).is_trouble("long: is no table of the small edition: it has more than 19456 bytes");
    folder.run(["judge", "--large", "confined", "--table", "large"]);
    folder.run(["check", "confined", "large"]).is_trouble(
        "large: is no table of the small edition: it has more than 19456 bytes. It is as long as a table of the large edition: try --large",
    );
    folder
        .run(["check", "--large", "confined", "/dev/zero"])
        .is_trouble("/dev/zero: is no table of the large edition: it has more than 286720 bytes");
}

#[test]
fn a_bad_file_is_refused_before_its_table_is_looked_at() {
    let folder = Folder::with_files();
    folder.put("bad", [6, 1]);
    for part in ["check", "table", "cite"] {
        let ran = folder.run([part, "bad", "confined.table"]);
        assert!(ran.status == 2 && ran.text().starts_with("refused 3 0\nrecord 1 at byte 0, grant: field v is 1"), "{part}: {ran:?}");
    }
}

#[test]
fn a_table_is_shown_row_by_row_the_guest_first() {
    let folder = Folder::with_files();
    let shown = "\
S(1) 3 5
S(2) 3 5
H(3,0-31) 3 5
H(5,0-31) 3 5
P(0) 0 1
P(1) 1
P(2) 1 2
P(3) 1 2 3 4 5
P(4) 1 4
P(5) 1 5
T(3) 3 5
";
    folder.run(["table", "leaks", "leaks.table"]).prints(0, shown);
    folder.run(["--large", "judge", "leaks", "--table", "large"]);
    folder.run(["--large", "table", "leaks", "large"]).prints(0, shown);
}

/// A run is of one label, and of names that follow one another with the same labels.
#[test]
fn rows_that_are_no_run_have_lines_of_their_own() {
    let folder = Folder::new();
    folder.put("text", "label 5 plain 0\nlabel 6 plain 0\nproperty 5 4 6\nproperty 5 6 6\nproperty 5 7 6\nproperty 5 8 5\nproperty 6 9 5\n");
    assert_eq!(folder.shell("$P build text -o file && $P judge file --table table").status, 0);
    folder.run(["table", "file", "table", "l5", "l6"]).prints(0, "H(5,4) 6\nH(5,6-7) 6\nH(5,8) 5\nP(5) 1 5\nH(6,9) 5\nP(6) 1 6\n");
    folder.run(["table", "file", "table", "H5,8", "H6,9"]).prints(0, "H(5,8) 5\nH(6,9) 5\n");
}

#[test]
fn rows_can_be_asked_for() {
    let folder = Folder::with_files();
    let ask = |words: &[&str]| folder.run(["table", "leaks", "leaks.table"].iter().chain(words));
    ask(&["S2", "S(2)", "v2", "S0", "H3,3", "H(3,3)", "P5", "T0"])
        .prints(0, "S(2) 3 5\nS(2) 3 5\nS(2) 3 5\nS(0)\nH(3,3) 3 5\nH(3,3) 3 5\nP(5) 1 5\nT(0)\n");
    ask(&["l5"]).prints(0, "H(5,0-31) 3 5\nP(5) 1 5\n");
    ask(&["l63"]).prints(0, "");
    ask(&["--holding", "4"]).prints(0, "P(3) 1 2 3 4 5\nP(4) 1 4\n");
    ask(&["P5", "P1", "--holding", "5"]).prints(0, "P(5) 1 5\n");
    ask(&["--holding", "63"]).prints(0, "");
    ask(&["--holding", "64"]).is_trouble("--holding 64: labels of the small edition are 0 to 63");
    for word in ["", "5", "S", "S(2", "S256", "H3", "H3,32", "H64,0", "P64", "l64", "X1", "S2,3", "é"] {
        ask(&[word]).is_trouble(&format!("`{word}` is none of S7, v7, H3,5, P5, T0 and l5 with numbers of the edition"));
    }
}

#[test]
fn names_of_a_side_file_stand_beside_the_rows() {
    let folder = Folder::with_files();
    folder.put("names", "label 5: the journal\nvariable 2 book # a comment\n");
    let ran = folder.run(["table", "leaks", "leaks.table", "S1", "S2", "H5,3", "P5", "T5", "T0", "--names", "names"]);
    ran.prints(
        0,
        "\
S(1) 3 5                                 # S(1): what the guest makes; the journal
S(2) 3 5                                 # book: what the guest makes; the journal
H(5,3) 3 5                               # the journal, prototype: what the guest makes; the journal
P(5) 1 5                                 # the journal, chain: Object.prototype; the journal
T(5)                                     # the journal, thrown
T(0)
",
    );
}

/// It is shown all the same, so that one can see what is wrong with it.
#[test]
fn a_table_that_is_not_finished_is_shown_with_a_warning() {
    let folder = Folder::with_files();
    let ran = folder.run(["table", "leaks", "confined.table", "S1"]);
    assert_eq!((ran.status, ran.text()), (2, "S(1) 3\n"));
    assert_eq!(ran.said, "pezvoran: confined.table: is not the finished table of leaks: it lacks 100 facts such as label 5 in S(1)\n");
    let ran = folder.run(["table", "confined", "leaks.table", "S1"]);
    assert_eq!((ran.status, ran.text()), (2, "S(1) 3 5\n"));
    assert_eq!(ran.said, "pezvoran: leaks.table: is not the finished table of confined: it holds more, 100 facts such as label 5 in S(1)\n");
    let object = &folder.run(["table", "--json", "confined", "leaks.table", "S1"]).objects()[0];
    assert_eq!((&object["finished"], &object["difference"]), (&false.into(), &"it holds more, 100 facts such as label 5 in S(1)".into()));
}

/// The check accepts a table of all ones where nothing is forbidden; it is not the finished one.
#[test]
fn only_the_finished_table_is_shown_without_a_word() {
    let folder = Folder::with_files();
    folder.put("file", [2, 5, 1, 0]);
    for (edition, bytes) in [(None, 2432 * 8), (Some("--large"), 35_840 * 8)] {
        folder.put("ones", vec![0xff; bytes]);
        assert_eq!(folder.run(["check", "file", "ones"].into_iter().chain(edition)).text(), "accepted\n");
        let ran = folder.run(["table", "file", "ones", "S0", "S1", "T60"].into_iter().chain(edition));
        assert_eq!((ran.status, ran.text()), (2, "S(0)\nS(1) 0 1 2 3 4 5\nT(60) 0 1 2 3 4 5\n"));
        assert!(ran.said.starts_with("pezvoran: ones: is not the finished table of file: it holds more, "), "{}", ran.said);
        assert!(ran.said.ends_with("; something is in row 0 or of labels that are not declared, which counts as absent and is not shown\n"));
    }
    // In S(1) label 3 is exchanged for 0; in a second table row 0 alone is not empty, in a third a label that is not declared.
    let finished = folder.get("confined.table");
    let with = |row: usize, byte: usize, value: u8| {
        let mut table = finished.clone();
        table[8 * row + byte] = value;
        folder.put("other", table);
        folder.run(["table", "confined", "other", "S0", "S1"])
    };
    let said = "pezvoran: other: is not the finished table of confined:";
    let absent = "something is in row 0 or of labels that are not declared, which counts as absent and is not shown";
    for (ran, shown, words) in [
        (with(1, 0, 1), "S(0)\nS(1) 0\n", "it holds others, label 0 in S(1), and lacks label 3 in S(1)"),
        (with(0, 0, 8), "S(0)\nS(1) 3\n", absent),
        (with(7, 7, 128), "S(0)\nS(1) 3\n", absent),
    ] {
        assert_eq!((ran.status, ran.text(), ran.said.as_str()), (2, shown, format!("{said} {words}\n").as_str()));
    }
    with(1, 0, 8).prints(0, "S(0)\nS(1) 3\n");
}

#[test]
fn a_check_of_a_file_that_forbids_nothing_warns() {
    let folder = Folder::new();
    folder.put("file", [2, 5, 1, 0]);
    folder.run(["judge", "file", "--table", "table"]);
    folder.run(["check", "file", "table"]).prints_of_nothing_forbidden("file", 0, "accepted\n");
}

#[test]
fn rows_are_objects_of_json_too() {
    let folder = Folder::with_files();
    let ran = folder.run(["table", "--json", "confined", "confined.table", "S2", "l5"]);
    ran.prints(
        0,
        "{\"file\":\"confined\",\"table\":\"confined.table\",\"edition\":\"small\",\"outcome\":\"accepted\",\"finished\":true,\"rows\":\
         [{\"row\":2,\"name\":\"S(2)\",\"labels\":[5]},{\"row\":2309,\"name\":\"P(5)\",\"labels\":[1,5]}]}\n",
    );
    let leaking = &folder.run(["table", "--json", "leaks", "leaks.table"]).objects()[0];
    assert_eq!(leaking["finished"], true);
    assert_eq!((&leaking["outcome"], &leaking["number"], leaking["rows"].as_array().map(Vec::len)), (&"refused".into(), &11.into(), Some(73)));
}

/// The client of `examples/c`, built once.
fn client() -> &'static PathBuf {
    static CLIENT: OnceLock<PathBuf> = OnceLock::new();
    CLIENT.get_or_init(|| {
        let client = PathBuf::from(env!("CARGO_TARGET_TMPDIR")).join("client");
        let archives = ["libpezvoran.a", "libpezvoran_large.a"].map(|archive| root().join("target/staticlib").join(archive));
        let mut cc = Command::new("cc");
        cc.args(["-std=c99", "-O1", "-I"]).arg(root().join("include")).arg("-o").arg(&client).arg(root().join("examples/c/client.c")).args(archives);
        assert!(cc.status().expect("cc runs").success());
        client
    })
}

#[test]
fn tables_are_those_of_the_c_client() {
    let folder = Folder::with_files();
    let client = |words: &[&str]| Ran::of(Command::new(client()).current_dir(&folder.location).args(words).output().expect("the client runs"));
    for edition in [&[][..], &["--large"]] {
        for (file, judged, checked) in [("confined", 0, 0), ("leaks", 1, 2)] {
            let with = |words: &[&'static str]| [edition, words].concat();
            assert_eq!(client(&with(&["judge", file, "theirs"])).status, judged);
            assert_eq!(folder.run(with(&["judge", file, "--table", "ours"])).status, judged);
            assert_eq!(folder.get("theirs"), folder.get("ours"));
            assert_eq!(client(&with(&["recheck", file, "ours"])).status, checked);
            assert_eq!(folder.run(with(&["check", file, "theirs"])).status, checked);
        }
    }
}

/// The check of the large edition takes some 600 kB of it.
#[test]
fn a_shell_with_a_small_stack_is_enough() {
    let folder = Folder::with_files();
    folder.run(["--large", "judge", "confined", "--table", "large"]);
    folder.shell("ulimit -s 256; $P --large check confined large").prints(0, "accepted\n");
}

/// A file and its table may come by standard input, but not both.
#[test]
fn either_may_be_standard_input() {
    let folder = Folder::with_files();
    folder.shell("$P check - confined.table < confined").prints(0, "accepted\n");
    folder.shell("$P check confined - < confined.table").prints(0, "accepted\n");
    folder.shell("cat confined.table | $P check confined -").prints(0, "accepted\n");
    for line in ["$P check - -", "$P table - -", "$P cite - -", "$P table - confined.table --names -"] {
        folder.shell(line).is_trouble("- is named more than once: standard input can be read only once");
    }
}
