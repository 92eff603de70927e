//! The table of kinds against the definitions: `Layout.antt` has the kinds and the classes of their fields, `Fields.antt` the refusal of each class. And against
//! the table of the C header.

use pezvoran::format::{Class, Kind};

const LAYOUT: &str = include_str!("../../../crates/layout/specs/Layout.antt");
const FIELDS: &str = include_str!("../../../crates/format/specs/Fields.antt");
const HEADER: &str = include_str!("../../../include/pezvoran_format.h");

/// The lines behind a line, up to one that is empty.
fn lines_behind<'a>(text: &'a str, head: &'a str) -> impl Iterator<Item = &'a str> {
    let behind = text.split_once(&format!("\n{head}\n")).unwrap_or_else(|| panic!("the line {head}")).1;
    behind.lines().take_while(|line| !line.is_empty())
}

/// A class as the definitions spell it.
fn spelled(class: Class) -> String {
    let mut spelled = String::new();
    for letter in format!("{class:?}").chars() {
        if letter.is_uppercase() && !spelled.is_empty() {
            spelled.push('_');
        }
        spelled.extend(letter.to_lowercase());
    }
    spelled
}

/// The classes of a row: "scope ∷ replicate 2 variable" or "[]".
fn classes(row: &str) -> Vec<String> {
    let entries = row.split('∷').map(str::trim).filter(|entry| !entry.is_empty() && *entry != "[]");
    let repeated = entries.map(|entry| match entry.strip_prefix("replicate ").and_then(|rest| rest.split_once(' ')) {
        Some((times, class)) => vec![class.to_string(); times.parse().expect("a number")],
        None => vec![entry.to_string()],
    });
    repeated.collect::<Vec<_>>().concat()
}

/// The rows of the definition: the classes and, where the row has one, the comment.
fn rows() -> Vec<(Vec<String>, String)> {
    let rows = lines_behind(LAYOUT, "kinds =").map(|line| {
        let (row, comment) = line.split_once("--").unwrap_or((line, ""));
        (classes(&row.replace(['(', ')'], "")), comment.trim().to_string())
    });
    rows.collect()
}

#[test]
fn the_table_is_that_of_the_definition() {
    let rows = rows();
    assert_eq!(rows.len(), 28, "27 rows and the end of the list");
    for byte in 0..=u8::MAX {
        let defined = rows.get(usize::from(byte)).map_or(&[][..], |row| &row.0);
        let fields = Kind::of_byte(byte).map_or(&[][..], Kind::fields);
        assert!(fields.iter().map(|field| spelled(field.class)).eq(defined.iter().cloned()), "kind {byte}");
        assert_eq!(Kind::of_byte(byte).map_or(0, Kind::body_length), defined.len(), "kind {byte}");
    }
}

/// A comment of the definition begins with number and name, and then has the fields in document 01's words.
#[test]
fn names_and_roles_are_those_of_the_definition() {
    let rows = rows();
    for kind in Kind::ALL {
        let comment = &rows[usize::from(kind.byte())].1;
        let (head, fields) = comment.split_once(": ").expect("a name");
        assert_eq!(head, format!("{} {}", kind.byte(), kind.name()));
        let fields = fields.split([';', '(']).next().expect("fields").trim();
        let roles: Vec<&str> = kind.fields().iter().map(|field| field.role).collect();
        let said = roles.join(", ").replace("formal1, formal2, formal3, formal4, formal5, formal6", "six formals");
        let said = said.replace("arg1, arg2, arg3, arg4, arg5, arg6", "six arguments");
        let said = match kind {
            Kind::Name => said.replace("mask", "class mask"),
            Kind::Function => said.replace("this", "this variable"),
            Kind::Variable => said.replace("owner", "owner scope"),
            Kind::Property => said.replace("to", "l'"),
            _ => said,
        };
        assert_eq!(said, fields, "{}", kind.name());
    }
}

#[test]
fn the_classes_are_those_of_the_definition_and_refused_alike() {
    let constructors = lines_behind(LAYOUT, "pub data Class : Type 0 where");
    let named: Vec<&str> = constructors.map(|line| line.split(':').next().expect("a name").trim()).collect();
    assert_eq!(Class::ALL.map(spelled).to_vec(), named);
    for class in Class::ALL {
        assert!(FIELDS.contains(&format!("\nrefusal_of {} = {}\n", spelled(class), class.refusal())), "{class:?}");
    }
}

#[test]
fn kinds_are_found_by_byte_and_by_name() {
    assert!(Kind::ALL.is_sorted() && Kind::ALL.len() == (0..=u8::MAX).filter_map(Kind::of_byte).count());
    for kind in Kind::ALL {
        assert_eq!(Kind::of_byte(kind.byte()), Some(kind));
        assert_eq!(Kind::of_name(kind.name()), Some(kind));
    }
    assert_eq!(Kind::of_name("make"), Some(Kind::Make));
    assert_eq!(Kind::of_name("Load"), None);
    assert_eq!(Kind::of_name(""), None);
}

/// So that `role=value` can stand for a field in a text.
#[test]
fn the_roles_of_a_kind_are_different_words() {
    for kind in Kind::ALL {
        let roles: Vec<&str> = kind.fields().iter().map(|field| field.role).collect();
        let words = |role: &&&str| role.chars().all(|letter| letter.is_ascii_lowercase() || letter.is_ascii_digit());
        assert_eq!(roles.iter().filter(words).count(), roles.len(), "{}", kind.name());
        assert!(roles.iter().enumerate().all(|(i, role)| !roles[..i].contains(role)), "{}", kind.name());
    }
}

/// The letter that the C header has for a class.
fn letter(class: Class) -> char {
    match class {
        Class::Name => 'n',
        Class::Mask => 'm',
        Class::NewLabel => 'L',
        Class::Type => 't',
        Class::Flag => 'b',
        Class::AnyLabel => 'a',
        Class::HostLabel => 'h',
        Class::FunctionLabel => 'f',
        Class::PlainLabel => 'p',
        Class::DataLabel => 'd',
        Class::Scope => 's',
        Class::NewVariable => 'V',
        Class::Variable => 'v',
        Class::DeclaredVariable => 'w',
        Class::GlobalVariable => 'g',
        Class::VariableName => 'o',
        Class::NameClass => 'c',
        Class::Key => 'k',
    }
}

#[test]
fn the_c_header_has_the_same_table() {
    for kind in Kind::ALL {
        let constant = format!("PEZVORAN_KIND_{}", kind.name().to_uppercase().replace(' ', "_"));
        let fields: String = kind.fields().iter().map(|field| letter(field.class)).collect();
        assert!(HEADER.contains(&format!("\n    {constant} = {}", kind.byte())), "{constant}");
        for text in [kind.name(), &fields] {
            assert!(HEADER.contains(&format!("\n    case {constant}: return \"{text}\";\n")), "{constant}: {text}");
        }
    }
    assert_eq!(HEADER.matches("\n    PEZVORAN_KIND_").count(), Kind::ALL.len());
}
