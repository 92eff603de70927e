//! `dump` and `build`, which undo each other, and the names of a side file.

use crate::folder::{Folder, Random, LEAKS};
use serde_json::json;

const TEXT: &str = "\
label l=5 type=plain flag=0                      # record 1 at byte 0
forbid l=5                                       # record 2 at byte 4
variable v=2 owner=0 name=none                   # record 3 at byte 6
held v=2 l=5                                     # record 4 at byte 10
grant v=2                                        # record 5 at byte 13
";

#[test]
fn a_file_is_dumped_record_by_record() {
    let folder = Folder::with_files();
    folder.run(["dump", "leaks"]).prints(0, TEXT);
    folder.run(["--large", "dump", "leaks"]).prints(0, TEXT);
    folder.put("empty", "");
    folder.run(["dump", "empty"]).prints(0, "");
}

#[test]
fn every_field_is_named_by_its_role() {
    let folder = Folder::new();
    folder.put("file", [2, 6, 2, 1, 5, 2, 0, 4, 17, 0, 2, 2, 143, 5, 18, 0, 2, 129, 0, 22, 0, 0, 2, 2, 5, 0, 0, 0, 0, 0, 2]);
    let ran = folder.run(["dump", "file"]);
    let records: Vec<&str> =
        ran.text().lines().filter(|line| !line.starts_with('#')).map(|line| line.split('#').next().expect("a record").trim()).collect();
    assert_eq!(
        records,
        [
            "label l=6 type=function flag=built-in",
            "variable v=2 owner=0 name=4",
            "load k=0 y=2 object=2 key=outside7 w=5",
            "store k=0 object=2 key=class1 value=0",
            "new k=0 y=0 callee=2 t=2 l=5 arg1=0 arg2=0 arg3=0 arg4=0 arg5=0 arg6=2",
        ]
    );
}

#[test]
fn names_of_a_side_file_stand_in_comments() {
    let folder = Folder::with_files();
    folder.put("names", "# what the numbers are\r\nlabel 5 the journal\r\nvariable 2: book\r\nname 31 unused\r\n\r\n");
    let ran = folder.run(["dump", "leaks", "--names", "names"]);
    assert_eq!((ran.status, ran.said.as_str()), (0, ""));
    for comment in ["# record 1 at byte 0: l the journal\n", "# record 3 at byte 6: v book\n", "# record 4 at byte 10: v book; l the journal\n"] {
        assert!(ran.text().contains(comment), "{}", ran.text());
    }
    folder.put("dump", &ran.bytes);
    assert_eq!(folder.run(["build", "dump"]).bytes, LEAKS);
}

/// What is declared beforehand has names without a line, and a line may give it another.
#[test]
fn names_declared_beforehand_are_known() {
    let folder = Folder::new();
    folder.put("file", [7, 0, 1, 2, 7, 4, 3, 1]);
    folder.put("names", "label 4 arrays");
    let ran = folder.run(["dump", "file", "--names", "names"]);
    assert!(ran.text().contains(": l global object; n toString; to Function.prototype\n"), "{}", ran.text());
    assert!(ran.text().contains(": l arrays; n prototype; to Object.prototype\n"), "{}", ran.text());
}

#[test]
fn a_bad_line_of_a_side_file_is_named() {
    let folder = Folder::with_files();
    let wanted = "label, variable or name, its number and what it is called are wanted";
    for (line, words) in [
        ("label", wanted.to_string()),
        ("label 5", wanted.to_string()),
        ("label 5 : ", wanted.to_string()),
        ("label 256 x", format!("`256` is no number from 0 to 255; {wanted}")),
        ("lable 5 x", format!("`lable` is none of label, variable and name; {wanted}")),
        ("label 4 x\nlabel 4 y", "label 4 is called `x` already".to_string()),
    ] {
        folder.put("names", format!("name 4 listener\n{line}"));
        let number = 2 + line.matches('\n').count();
        folder.run(["dump", "leaks", "--names", "names"]).is_trouble(&format!("names:{number}:1: {words}"));
    }
    folder.run(["dump", "leaks", "--names", "none"]).is_trouble("none: No such file or directory");
}

/// The comment stands before the record, and the records behind it are shown as well.
#[test]
fn a_dump_says_where_the_file_would_be_refused() {
    let folder = Folder::new();
    folder.put("file", [6, 1, 3, 3, 77, 1, 2]);
    let ran = folder.run(["dump", "file"]);
    let words = "refused 3 0: record 1 at byte 0, grant: field v is 1, which is the guest's bag; a declared variable with owner 0 is wanted";
    assert_eq!(
        (ran.status, ran.text()),
        (2, format!("# {words}\n{:<48} # record 1 at byte 0\n{:<48} # record 2 at byte 2\n77 1 2\n", "grant v=1", "forbid l=3").as_str())
    );
    assert_eq!(ran.said, format!("pezvoran: file: {words}\n"));
    folder.put("file", [3, 3, 77, 1, 2]);
    let ran = folder.run(["dump", "file"]);
    assert!(ran.text().ends_with("# refused 1 2: record 2 at byte 2: kind 77 is unknown\n77 1 2\n"), "{}", ran.text());
    folder.put("file", [2, 6, 2, 0]);
    let ran = folder.run(["dump", "file"]);
    assert!(ran.text().ends_with("\n# refused 7 4: function label 6 has no function record\n"), "{}", ran.text());
}

#[test]
fn a_file_that_is_too_long_is_not_dumped() {
    let folder = Folder::new();
    folder.put("long", [3; 32_769]);
    let ran = folder.run(["dump", "long"]);
    let words = "refused 9 0: the file has 32769 bytes; 32768 at most are wanted";
    assert_eq!((ran.status, ran.text(), &ran.said), (2, format!("# {words}\n").as_str(), &format!("pezvoran: long: {words}\n")));
    let object = &folder.run(["dump", "--json", "long"]).objects()[0];
    assert_eq!((&object["records"], &object["rest"], &object["refused"]["number"]), (&json!([]), &json!([]), &json!(9)));
}

#[test]
fn a_dump_is_an_object_of_json_too() {
    let folder = Folder::new();
    folder.put("file", [2, 5, 1, 0, 6, 1, 99]);
    let ran = folder.run(["dump", "--json", "file"]);
    assert_eq!(ran.status, 2);
    assert_eq!(
        ran.objects(),
        [json!({
            "file": "file",
            "edition": "small",
            "records": [
                {"record": 1, "position": 0, "kind": "label", "fields": {"l": 5, "type": 1, "flag": 0}},
                {"record": 2, "position": 4, "kind": "grant", "fields": {"v": 1}},
            ],
            "rest": [99],
            "refused": {
                "number": 3,
                "position": 4,
                "words": "record 2 at byte 4, grant: field v is 1, which is the guest's bag; a declared variable with owner 0 is wanted",
                "record": 2,
                "kind": "grant",
                "field": "v",
                "value": 1,
            },
        })]
    );
}

#[test]
fn what_is_dumped_is_built_again() {
    let folder = Folder::new();
    let mut random = Random(19);
    for _ in 0..200 {
        let file = random.records();
        folder.put("file", &file);
        let dump = folder.run(["dump", "file"]);
        folder.put("text", &dump.bytes);
        let built = folder.run(["build", "--unchecked", "text"]);
        assert_eq!((built.status, &built.bytes), (0, &file), "{}", dump.text());
        let checked = folder.run(["build", "text"]);
        assert_eq!(checked.status, dump.status, "{}", checked.said);
        assert_eq!(checked.bytes, if checked.status == 0 { file } else { Vec::new() });
    }
}

#[test]
fn a_text_has_records_or_numbers() {
    let folder = Folder::new();
    folder.put("text", "# a journal\nlabel 5 plain 0\n3 5\n\tvariable v=2 owner=0 none # mixed\n8 2\n5 6 2\n");
    assert_eq!(folder.run(["build", "text"]).bytes, LEAKS);
    folder.put("text", "\u{feff}label 5 plain 0\r\n3 5\r\nvariable v=2 owner=0 none\r\n8 2 5 6 2\r\n");
    assert_eq!(folder.run(["build", "text"]).bytes, LEAKS);
    assert_eq!(folder.run_with(["build", "-"], TEXT.as_bytes()).bytes, LEAKS);
    folder.put("empty", "");
    folder.run(["build", "empty"]).prints_of_nothing_forbidden("empty", 0, "");
}

#[test]
fn complaints_give_line_and_column() {
    let folder = Folder::new();
    folder.put("text", "label 5 plain 0\ngrant 2 3\n 5 2 0 256\nlod 1\n");
    let ran = folder.run(["build", "text"]);
    assert_eq!((ran.status, ran.text()), (3, ""));
    assert_eq!(
        ran.said,
        "text:2:9: `3` is one field too many: grant has v\ntext:3:8: `256` is no number from 0 to 255\ntext:4:1: `lod` is neither a byte nor a kind of record; \
         kinds are name, label, forbid, function, variable, grant, property, held, profile, copy, load, store, make, make function, call, new, return, throw, \
         catch, prim\n"
    );
    folder.put("text", "x\n".repeat(50));
    let ran = folder.run(["build", "text"]);
    assert_eq!(ran.said.lines().count(), 21);
    assert!(ran.said.ends_with("pezvoran: text: 30 more lines are wrong\n"));
    let ran = folder.run_with(["build", "-"], b"copy 0");
    assert_eq!(ran.said, "standard input:1:1: field y is missing: copy has k, y, source\n");
}

/// Nothing is written, and the place is that of the field.
#[test]
fn a_text_that_a_judge_would_refuse_is_not_built() {
    let folder = Folder::new();
    folder.put("old", "what was there");
    for (text, said) in [
        (
            "label 5 array 0\nvariable 2 0 none\nload 0 y=2 2 key=4 w=5\n".to_string(),
            "text:3:20: refused 4 8: record 3 at byte 8, load: field w is 5, which is an array; a plain label from 5 up is wanted\n",
        ),
        ("forbid 3\n 77 1\n".to_string(), "text:2:2: refused 1 2: record 2 at byte 2: kind 77 is unknown\n"),
        ("forbid 3\n\n3".to_string(), "text:3:1: refused 2 2: record 2 at byte 2, forbid: "),
        (
            "name 4 1\n 1 4 1".to_string(),
            "text:2:4: refused 6 3: record 2 at byte 3, name: field n is 4, which the record at byte 0 declares already\n",
        ),
        ("forbid 3\nlabel 6 function 0\nforbid 6\n".to_string(), "text:2:1: refused 7 8: function label 6 has no function record\n"),
        ("forbid 3\n".repeat(16_385), "text:16385:1: refused 9 0: the file has 32770 bytes; 32768 at most are wanted\n"),
    ] {
        folder.put("text", &text);
        let ran = folder.run(["build", "text", "-o", "old"]);
        assert!(ran.status == 2 && ran.bytes.is_empty() && ran.said.starts_with(said) && ran.said.lines().count() == 1, "{said}{}", ran.said);
        assert_eq!(folder.get("old"), b"what was there");
        let ran = folder.run(["build", "--unchecked", "text", "-o", "new"]);
        ran.prints(0, "");
        assert!(!folder.get("new").is_empty());
    }
}

#[test]
fn the_edition_decides_what_is_built() {
    let folder = Folder::new();
    folder.put("text", "label 64 plain 0");
    let ran = folder.run(["build", "text"]);
    assert!(
        ran.status == 2
            && ran.said.starts_with("text:1:7: refused 4 0: ")
            && ran.said.ends_with(". The large edition reads this file: try --large\n")
    );
    assert_eq!(folder.run(["--large", "build", "text"]).bytes, [2, 64, 1, 0]);
    // The first fault alone decides, not what the large edition finds behind it; a label that is not declared there either is no matter of editions.
    folder.put("text", "label 64 plain 0\ngrant 9\n");
    assert!(folder.run(["build", "text"]).said.ends_with(". The large edition has this label: try --large\n"));
    folder.put("text", "forbid 64\n");
    assert!(!folder.run(["build", "text"]).said.contains("--large"));
}

#[test]
fn bytes_go_to_a_file_whole_or_to_standard_output() {
    let folder = Folder::with_files();
    folder.put("text", TEXT);
    for words in [&["-o", "out"][..], &["--output", "out"]] {
        folder.put("out", "what was there");
        folder.run(["build", "text"].iter().chain(words)).prints(0, "");
        assert_eq!(folder.get("out"), LEAKS);
    }
    assert_eq!(folder.run(["build", "text", "-o", "-"]).bytes, LEAKS);
    folder.run(["build", "text", "-o", "text"]).is_trouble("text: is what is read, and would be overwritten");
    assert_eq!(folder.get("text"), TEXT.as_bytes());
    folder.shell("$P build text >> text").is_trouble("text: is standard output too, and would be written into itself");
    assert_eq!(folder.get("text"), TEXT.as_bytes());
}

#[test]
fn a_text_without_end_is_not_kept_in_memory() {
    let folder = Folder::new();
    folder.put("file", "");
    for words in [&["build", "/dev/zero"][..], &["dump", "file", "--names", "/dev/zero"]] {
        folder.run(words).is_trouble("/dev/zero: is longer than 16777216 bytes");
    }
}
