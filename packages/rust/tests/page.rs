//! `docs/FORMAT.md` against the package: its tables of kinds, fields and refusals, and its examples, which are run. Those of the small edition are run in both.

use pezvoran::format::{read, records, Class, Field, Key, Kind, Label, Name, Type, Var, Writer};
use pezvoran::{verdict, Answer, Edition, Large, Refusal, Small, Table};

const PAGE: &str = include_str!("../../../docs/FORMAT.md");

/// The rows of the table whose head begins with these cells, each cell without the spaces round it.
fn table(head: &str) -> Vec<Vec<&'static str>> {
    let start = PAGE.find(&format!("\n{head}")).unwrap_or_else(|| panic!("a table {head}")) + 1;
    let rows = PAGE[start..].lines().take_while(|line| line.starts_with('|')).skip(2);
    rows.map(|row| row.trim_matches('|').split('|').map(str::trim).collect()).collect()
}

/// The words in backquotes.
fn quoted(cell: &str) -> Vec<&str> {
    cell.split('`').skip(1).step_by(2).collect()
}

/// Roles as the page has them: of six in a row the first and the last.
fn shown(fields: &[Field]) -> Vec<&'static str> {
    let between = |role: &str| ["arg", "formal"].iter().any(|word| role.strip_prefix(word).is_some_and(|number| ("2".."6").contains(&number)));
    fields.iter().map(|field| field.role).filter(|role| !between(role)).collect()
}

#[test]
fn the_table_of_kinds_is_that_of_the_package() {
    let rows = table("| byte | kind | body |");
    assert_eq!(rows.len(), Kind::ALL.len());
    for (row, kind) in rows.iter().zip(Kind::ALL) {
        assert_eq!(row[0], kind.byte().to_string());
        assert_eq!(row[1], kind.name());
        assert_eq!(quoted(row[2]), shown(kind.fields()), "{}", kind.name());
        assert_eq!(row[3], kind.body_length().to_string(), "{}", kind.name());
    }
}

#[test]
fn the_table_of_fields_is_that_of_the_package() {
    let rows = table("| may be | fields |");
    assert_eq!(rows.len(), Class::ALL.len());
    for class in Class::ALL {
        let wanted = class.wanted::<Small>();
        let row = rows.iter().find(|row| row[0] == wanted).unwrap_or_else(|| panic!("a row: {wanted}"));
        let mut roles: Vec<&str> =
            Kind::ALL.iter().flat_map(|kind| shown(kind.fields()).into_iter().filter(|role| has(*kind, role, class))).collect();
        let mut said = quoted(row[1]);
        roles.sort();
        roles.dedup();
        said.sort();
        assert_eq!(said, roles, "{wanted}");
        assert_eq!(row[2], class.refusal().to_string(), "{wanted}");
    }
}

fn has(kind: Kind, role: &str, class: Class) -> bool {
    kind.fields().iter().any(|field| field.role == role && field.class == class)
}

#[test]
fn the_table_of_refusals_has_the_words_of_the_package() {
    let rows = table("| number | says |");
    assert_eq!(rows.len(), 11);
    for (row, number) in rows.iter().zip(1..) {
        let refusal = Refusal { number, position: 0, guest: None };
        assert_eq!((row[0], row[1]), (number.to_string().as_str(), refusal.text()));
    }
}

/// An example: the blocks with a line `# prints:`.
fn examples() -> Vec<&'static str> {
    let blocks = PAGE.split("\n```").skip(1).step_by(2).map(|block| block.split_once('\n').expect("a block").1);
    blocks.filter(|block| block.contains("# prints: ")).collect()
}

/// What stands behind such words at the beginning of a line.
fn stated<'a>(example: &'a str, words: &'a str) -> impl Iterator<Item = &'a str> {
    example.lines().filter_map(move |line| line.strip_prefix(words))
}

/// The bytes of an example: a record a line, as numbers or as the kind and its fields.
fn bytes(example: &str) -> Vec<u8> {
    let lines = example.lines().map(|line| line.split('#').next().expect("a part").trim()).filter(|line| !line.is_empty());
    lines.flat_map(|line| record(line).unwrap_or_else(|| panic!("a record: {line}"))).collect()
}

fn record(line: &str) -> Option<Vec<u8>> {
    if line.starts_with(|letter: char| letter.is_ascii_digit()) {
        return line.split_whitespace().map(|byte| byte.parse().ok()).collect();
    }
    let words: Vec<&str> = line.split_whitespace().collect();
    let first = words.iter().position(|word| word.contains('='))?;
    let kind = Kind::of_name(&words[..first].join(" "))?;
    let fields = kind.fields().iter().zip(&words[first..]).map(|(field, word)| value(field, word));
    let body: Vec<u8> = fields.collect::<Option<_>>()?;
    (words.len() - first == kind.body_length()).then(|| [&[kind.byte()], &body[..]].concat())
}

fn value(field: &Field, word: &str) -> Option<u8> {
    let word = word.strip_prefix(field.role)?.strip_prefix('=')?;
    let class = |prefix| word.strip_prefix(prefix).and_then(|class: &str| class.parse().ok());
    match (field.class, word) {
        (Class::Type, "plain") => Some(Type::Plain as u8),
        (Class::Type, "function") => Some(Type::Function as u8),
        (Class::Type, "array") => Some(Type::Array as u8),
        (Class::Flag, "built-in") => Some(1),
        (Class::VariableName, "none") => Some(255),
        (Class::Key, _) if word.starts_with("class") => class("class").map(|class| Key::class(class).byte()),
        (Class::Key, _) if word.starts_with("outside") => class("outside").map(|class| Key::outside(class).byte()),
        _ => word.parse().ok(),
    }
}

/// What the program prints of a file.
fn printed<E: Edition>(file: &[u8]) -> Vec<String> {
    let mut table = Table::<E>::new();
    let answer = verdict(file, &mut table);
    let guest: String = table.guest().map(|label| format!(" {label}")).collect();
    match answer {
        Answer::Refused(_) => vec![answer.to_string()],
        _ => vec![answer.to_string(), format!("guest{guest}")],
    }
}

#[test]
fn the_examples_print_what_they_state() {
    assert!(examples().len() >= 13, "{}", examples().len());
    for example in examples() {
        let file = bytes(example);
        let lines: Vec<&str> = stated(example, "# prints: ").collect();
        if !example.contains("# edition: large") {
            assert_eq!(printed::<Small>(&file), lines, "{example}");
        }
        assert_eq!(printed::<Large>(&file), lines, "{example}");
        let said: Vec<&str> = stated(example, "# says: ").collect();
        let faults: Vec<String> = read::<Small>(&file).err().iter().map(ToString::to_string).collect();
        assert_eq!(faults, said, "{example}");
    }
}

/// "# with A for B: leaks 5 148": the example with one word changed.
#[test]
fn the_examples_change_as_they_state() {
    let mut changes = 0;
    for example in examples() {
        for change in stated(example, "# with ") {
            let (words, answer) = change.split_once(": ").expect("an answer");
            let (new, old) = words.split_once(" for ").expect("two words");
            let records: Vec<&str> = example.lines().filter(|line| !line.starts_with('#')).collect();
            let records = records.join("\n");
            assert_eq!(records.matches(old).count(), 1, "{old}");
            assert_eq!(printed::<Small>(&bytes(&records.replace(old, new)))[0], answer, "{change}");
            changes += 1;
        }
    }
    assert!(changes >= 11, "{changes}");
}

/// An example of the folder, with each function that it makes under `constructor` in its prototype. Name 20 is `constructor`, with this mask.
fn with_constructors(example: &str, mask: u8) -> Vec<u8> {
    let file = bytes(example);
    let mut writer = Writer::<Small>::new();
    for record in records(&file) {
        writer.record(record.kind, record.body).expect("a good record");
    }
    writer.name(Name(20), mask).expect("a name that the example does not use");
    for record in records(&file).filter(|record| record.kind == Kind::MakeFunction) {
        let (scope, function) = (Label(record.body[0]), Var(record.body[1]));
        let wrapper = (5..).find(|&label| writer.sheet().type_of(label).is_none()).map(Label).expect("a free label");
        let prototype = (2..).find(|&variable| writer.sheet().owner(variable).is_none()).map(Var).expect("a free variable");
        writer.label(wrapper, Type::Plain, false).expect("a good label");
        writer.variable(prototype, scope, None).expect("a good variable");
        writer.load(scope, prototype, function, Name::PROTOTYPE, wrapper).expect("a good load");
        writer.store(scope, prototype, Name(20), function).expect("a good store");
    }
    writer.finish().expect("nothing is missing")
}

/// What the page says of the examples and `constructor`. Class 2 is that of the profile.
#[test]
fn constructors_make_the_examples_leak_unless_a_profile_reserves_the_name() {
    let (reserved, open) = (1, 1 | 1 << 2);
    let plain = include_str!("../../../examples/adsafe-confined.txt");
    let profile = include_str!("../../../examples/adsafe-profile-confined.txt");
    for (example, mask, outcome) in [(plain, reserved, "leaks"), (plain, open, "leaks"), (profile, reserved, "confined"), (profile, open, "leaks")] {
        assert!(printed::<Small>(&bytes(example))[0].starts_with("confined"));
        assert!(printed::<Small>(&with_constructors(example, mask))[0].starts_with(outcome), "{mask} {outcome}");
    }
}
