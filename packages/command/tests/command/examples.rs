//! The examples: `build` makes the bytes that `examples/bytes` makes, and the command prints what their heads state.

use crate::folder::{root, Folder};
use std::fs;
use std::process::Command;

struct Example {
    name: String,
    text: Vec<u8>,
    is_large: bool,
    stated: String,
}

impl Example {
    fn of(name: String, text: Vec<u8>) -> Example {
        let words = String::from_utf8_lossy(&text).into_owned();
        let stated = words.lines().filter_map(|line| line.strip_prefix("# prints: ")).map(|line| format!("{line}\n")).collect();
        Example { name, text, is_large: words.lines().any(|line| line == "# edition: large"), stated }
    }
}

/// Those in the folder and those that `examples/gallery` writes.
fn examples() -> Vec<Example> {
    let entries = fs::read_dir(root().join("examples")).expect("a folder").map(|entry| entry.expect("an entry").path());
    let texts = entries.filter(|path| path.extension().is_some_and(|ending| ending == "txt"));
    let kept = texts.map(|path| Example::of(path.display().to_string(), fs::read(&path).expect("a text")));
    let gallery = |version| Command::new(root().join("examples/gallery")).arg(version).output().expect("it runs").stdout;
    kept.chain(["confined", "leaks"].map(|version| Example::of(format!("gallery {version}"), gallery(version)))).collect()
}

#[test]
fn each_example_is_built_judged_and_checked_as_its_head_states() {
    let examples = examples();
    assert!(examples.len() >= 20);
    for Example { name, text, is_large, stated } in examples {
        let folder = Folder::new();
        folder.put("text", &text);
        let bytes = Command::new(root().join("examples/bytes")).arg(folder.path("text")).output().expect("it runs").stdout;
        for edition in if is_large { &["--large"][..] } else { &["--large", ""] } {
            let run = |words: &[&'static str]| folder.run(words.iter().chain([edition]).filter(|word| !word.is_empty()));
            run(&["build", "text", "-o", "file"]).prints(0, "");
            assert_eq!(folder.get("file"), bytes, "{name}");
            let leaks = stated.starts_with("leaks ");
            run(&["judge", "file", "--table", "table"]).prints(leaks.into(), &stated);
            let checked = run(&["check", "file", "table"]);
            assert!(checked.text().starts_with(if leaks { "refused 11 " } else { "accepted\n" }), "{name}: {checked:?}");
            folder.put("dump", run(&["dump", "file"]).bytes);
            assert_eq!(run(&["build", "dump"]).bytes, bytes, "{name}");
            let first = run(&["table", "file", "table"]).text().lines().next().map(String::from);
            assert_eq!(first, stated.lines().nth(1).map(|line| line.replace("guest", "S(1)")), "{name}");
        }
    }
}
