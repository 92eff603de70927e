//! Text to bytes, with the place of each byte in the text.

use super::spelling::{byte, value};
use super::{numbered_lines, Place};
use pezvoran::format::{Field, Kind};

/// What is wrong with a text, and where.
#[derive(Debug, PartialEq, Eq)]
pub struct Complaint {
    pub place: Place,
    pub words: String,
}

/// The bytes that a text stands for.
#[derive(Debug, Default)]
pub struct Parsed {
    pub bytes: Vec<u8>,
    pub places: Places,
}

impl Parsed {
    fn push(&mut self, byte: u8, place: Place) {
        self.bytes.push(byte);
        self.places.of_bytes.push(place);
    }
}

/// Where the bytes stand in the text.
#[derive(Debug, Default)]
pub struct Places {
    of_bytes: Vec<Place>,
    lines: usize,
}

impl Places {
    /// The place of a byte; the last line for one that is not there.
    pub fn at(&self, position: usize) -> Place {
        self.of_bytes.get(position).copied().unwrap_or(Place { line: self.lines, column: 1 })
    }
}

/// The bytes, or all that is wrong, at most one thing a line.
pub fn parse(text: &[u8]) -> Result<Parsed, Vec<Complaint>> {
    let (mut parsed, mut complaints) = (Parsed::default(), Vec::new());
    for (number, line) in numbered_lines(text) {
        parsed.places.lines = number;
        complaints.extend(parse_line(&words(number, &line), &mut parsed).err());
    }
    if complaints.is_empty() {
        Ok(parsed)
    } else {
        Err(complaints)
    }
}

/// A word of a line.
struct Word<'a> {
    text: &'a str,
    place: Place,
}

impl Word<'_> {
    fn complain(&self, words: String) -> Complaint {
        Complaint { place: self.place, words }
    }
}

/// The words of a line before its comment.
fn words(number: usize, line: &str) -> Vec<Word<'_>> {
    let said = line.split('#').next().unwrap_or_default();
    let start = |text: &str| text.as_ptr() as usize - said.as_ptr() as usize;
    let word = |text| Word { text, place: Place { line: number, column: 1 + said[..start(text)].chars().count() } };
    said.split_ascii_whitespace().map(word).collect()
}

fn parse_line(words: &[Word<'_>], parsed: &mut Parsed) -> Result<(), Complaint> {
    let Some(first) = words.first() else {
        return Ok(());
    };
    if first.text.starts_with(|c: char| c.is_ascii_digit()) {
        return parse_numbers(words, parsed);
    }
    let (kind, length) = kind_of(words).ok_or_else(|| first.complain(no_kind(first.text)))?;
    parse_record(kind, first, &words[length..], parsed)
}

fn parse_numbers(words: &[Word<'_>], parsed: &mut Parsed) -> Result<(), Complaint> {
    for word in words {
        let byte = byte(word.text).ok_or_else(|| word.complain(format!("`{}` is no number from 0 to 255", word.text)))?;
        parsed.push(byte, word.place);
    }
    Ok(())
}

/// The kind with which a line begins, and how many words its name has: the longest name counts.
fn kind_of(words: &[Word<'_>]) -> Option<(Kind, usize)> {
    (1..=words.len().min(2)).rev().find_map(|length| {
        let name: Vec<&str> = words[..length].iter().map(|word| word.text).collect();
        Kind::of_name(&name.join(" ")).map(|kind| (kind, length))
    })
}

fn no_kind(word: &str) -> String {
    let names: Vec<&str> = Kind::ALL.into_iter().map(Kind::name).collect();
    format!("`{word}` is neither a byte nor a kind of record; kinds are {}", names.join(", "))
}

fn parse_record(kind: Kind, first: &Word<'_>, words: &[Word<'_>], parsed: &mut Parsed) -> Result<(), Complaint> {
    let fields = kind.fields();
    if let Some(word) = words.get(fields.len()) {
        return Err(word.complain(format!("`{}` is one field too many: {}", word.text, shape(kind))));
    }
    let body = fields.iter().zip(words).map(|(field, word)| parse_field(kind, field, word)).collect::<Result<Vec<u8>, _>>()?;
    if let Some(field) = fields.get(body.len()) {
        return Err(first.complain(format!("field {} is missing: {}", field.role, shape(kind))));
    }
    parsed.push(kind.byte(), first.place);
    body.into_iter().zip(words).for_each(|(byte, word)| parsed.push(byte, word.place));
    Ok(())
}

fn parse_field(kind: Kind, field: &Field, word: &Word<'_>) -> Result<u8, Complaint> {
    let (role, text) = word.text.split_once('=').unwrap_or((field.role, word.text));
    if role != field.role {
        return Err(word.complain(format!("`{role}` is not the field that comes next: {}", shape(kind))));
    }
    value(field.class, text).map_err(|wanted| word.complain(format!("`{text}` is no value of field {role}; wanted is {wanted}")))
}

fn shape(kind: Kind) -> String {
    let roles: Vec<&str> = kind.fields().iter().map(|field| field.role).collect();
    format!("{} has {}", kind.name(), roles.join(", "))
}

#[cfg(test)]
mod tests {
    use super::*;

    fn bytes(text: &str) -> Vec<u8> {
        parse(text.as_bytes()).expect("a text").bytes
    }

    fn complaints(text: &str) -> Vec<String> {
        let complaints = parse(text.as_bytes()).expect_err("no text");
        complaints.into_iter().map(|complaint| format!("{}: {}", complaint.place, complaint.words)).collect()
    }

    #[test]
    fn records_and_numbers_may_be_mixed() {
        assert!(bytes("").is_empty());
        assert_eq!(bytes("label l=5 type=plain flag=0\n3 5 # forbidden\n\n  6\n  2"), [2, 5, 1, 0, 3, 5, 6, 2]);
        assert_eq!(bytes("label 5 function built-in\r\nmake function 0 y=2 5 6\r\n"), [2, 5, 2, 1, 20, 0, 2, 5, 6]);
        assert_eq!(bytes("\u{feff}make 0 2 5"), [19, 0, 2, 5]);
        assert_eq!(bytes("store 0 2 class1 3\nstore 0 2 key=outside7 3\nvariable 2 0 none"), [18, 0, 2, 129, 3, 18, 0, 2, 143, 3, 5, 2, 0, 255]);
    }

    #[test]
    fn complaints_say_where_and_what_is_wanted() {
        assert_eq!(
            complaints("1 4 3\n grant v=300\nlod 1\n\n2 5 x"),
            [
                "2:8: `300` is no value of field v; wanted is a number from 0 to 255".to_string(),
                format!("3:1: {}", no_kind("lod")),
                "5:5: `x` is no number from 0 to 255".to_string(),
            ]
        );
        assert_eq!(complaints("copy k=0 source=2 y=3"), ["1:10: `source` is not the field that comes next: copy has k, y, source"]);
        assert_eq!(complaints("copy 0 2"), ["1:1: field source is missing: copy has k, y, source"]);
        assert_eq!(complaints("make function 0 2 5 6 7"), ["1:23: `7` is one field too many: make function has k, y, l, q"]);
        assert_eq!(
            complaints("label 5 object 0"),
            ["1:9: `object` is no value of field type; wanted is a number from 0 to 255, plain, function, array"]
        );
    }

    /// Columns count characters, and a bad byte of the text is one.
    #[test]
    fn columns_count_characters() {
        assert_eq!(complaints("é 5"), [format!("1:1: {}", no_kind("é"))]);
        assert_eq!(parse(b"# \xff\xfe\n6 2").expect("a text").bytes, [6, 2]);
        let complaint = &parse(b"6 \xff 2").expect_err("no text")[0];
        assert_eq!(complaint.place, Place { line: 1, column: 3 });
    }
}
