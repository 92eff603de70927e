//! `cite`.

use crate::folder::{root, Folder};
use std::path::Path;
use std::process::Command;

fn sha256(path: &Path) -> String {
    let output = Command::new("sha256sum").arg(path).output().expect("sha256sum runs");
    String::from_utf8(output.stdout).expect("text")[..64].to_string()
}

/// What `--version` prints behind these words.
fn built_from(folder: &Folder, words: &str) -> String {
    let version = folder.run(["--version"]);
    version.text().lines().find_map(|line| line.strip_prefix(words)).expect("a line").to_string()
}

/// Whether commit and kit are known, without which nothing is cited.
fn is_known(folder: &Folder) -> bool {
    ["commit ", "kit "].iter().all(|words| built_from(folder, words) != "unknown")
}

#[test]
fn nothing_is_cited_where_commit_or_kit_are_unknown() {
    let folder = Folder::with_files();
    let ran = folder.run(["cite", "confined", "confined.table"]);
    let is_refused =
        ran.status == 3 && ran.bytes.is_empty() && ran.said.contains("nothing is cited, since commit or kit of the archives are unknown");
    assert_eq!(is_refused, !is_known(&folder), "{ran:?}");
}

#[test]
fn a_confined_file_is_cited_with_its_table() {
    let folder = Folder::with_files();
    if !is_known(&folder) {
        return;
    }
    let (commit, kit) = (built_from(&folder, "commit "), built_from(&folder, "kit "));
    folder.run(["--large", "judge", "confined", "--table", "large.table"]);
    for (edition, table, said, archive) in
        [(None, "confined.table", "", "archive SHA-256 "), (Some("--large"), "large.table", " in the large edition", "large archive SHA-256 ")]
    {
        let ran = folder.run(["cite", "confined", table].into_iter().chain(edition));
        let (file, table, archive) = (sha256(&folder.path("confined")), sha256(&folder.path(table)), built_from(&folder, archive));
        let line = format!(
            "confined 48{said} by Pezvoran's archive with SHA-256 {archive}, at commit {commit}, proved with {kit}, for the statement file with SHA-256 {file} \
             and the table with SHA-256 {table}\n"
        );
        assert_eq!((ran.status, ran.text()), (0, line.as_str()));
    }
}

/// Others could not repeat what was built from sources that nobody else has.
#[test]
fn it_is_said_if_the_sources_differ_from_the_commit() {
    let folder = Folder::with_files();
    let is_changed = built_from(&folder, "commit ").ends_with(" with changes that are not committed");
    let said = folder.run(["cite", "confined", "confined.table"]).said;
    assert_eq!(said.contains("built from sources that differ from the commit"), is_changed, "{said}");
}

#[test]
fn a_citation_is_an_object_of_json_too() {
    let folder = Folder::with_files();
    if !is_known(&folder) {
        return;
    }
    let (commit, kit) = (built_from(&folder, "commit "), built_from(&folder, "kit "));
    let object = &folder.run(["cite", "--json", "confined", "confined.table"]).objects()[0];
    for (field, value) in
        [("outcome", "confined"), ("table", "confined.table"), ("kit", kit.as_str()), ("file_sha256", &sha256(&folder.path("confined")))]
    {
        assert_eq!(object[field], value);
    }
    assert_eq!(object["archive_sha256"], built_from(&folder, "archive SHA-256 "));
    let large = &folder.shell("$P --large judge confined --table large > printed && $P --large cite --json confined large").objects()[0];
    assert_eq!(large["archive_sha256"], built_from(&folder, "large archive SHA-256 "));
    assert_eq!((&object["facts"], object["changed"].as_bool().is_some()), (&48.into(), true));
    assert!(commit.starts_with(object["commit"].as_str().expect("a commit")));
    assert!(object["citation"].as_str().expect("a line").starts_with("confined 48 by Pezvoran's archive with SHA-256 "));
}

#[test]
fn what_is_refused_is_not_cited() {
    let folder = Folder::with_files();
    for (file, table, number) in [("leaks", "leaks.table", 11), ("leaks", "confined.table", 10)] {
        let ran = folder.run(["cite", file, table]);
        assert_eq!(ran.status, 2);
        assert!(ran.text().starts_with(&format!("refused {number} ")) && !ran.text().contains("Pezvoran"), "{ran:?}");
        let object = &folder.run(["cite", "--json", file, table]).objects()[0];
        assert!(object["number"] == number && object.get("citation").is_none(), "{object}");
    }
}

/// Where the command was built with the archives of the repository, and these were not built anew since.
#[test]
fn the_archives_are_those_that_are_linked() {
    let folder = Folder::new();
    if std::env::var_os("PEZVORAN_LIB_DIR").is_some() || !is_known(&folder) {
        return;
    }
    for (archive, words) in [("libpezvoran.a", "archive SHA-256 "), ("libpezvoran_large.a", "large archive SHA-256 ")] {
        assert_eq!(built_from(&folder, words), sha256(&root().join("target/staticlib").join(archive)), "{archive}");
    }
}

#[test]
fn a_file_that_forbids_nothing_is_cited_with_a_warning() {
    let folder = Folder::new();
    folder.put("empty", "");
    let ran = folder.shell("$P judge empty --table table > printed 2>&1 && $P cite empty table");
    assert!(ran.said.starts_with("pezvoran: empty: forbids nothing, and is confined whatever else it says\n"), "{ran:?}");
}
