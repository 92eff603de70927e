//! Bytes to text.

use super::spelling::spell;
use crate::names::{Names, Thing};
use pezvoran::format::Record;

/// The column at which comments begin, where they can.
const COMMENT: usize = 48;

/// A record with all its fields, where it stands, and what is known by name.
pub fn record_line(record: &Record<'_>, names: &Names) -> String {
    let fields = || record.kind.fields().iter().zip(record.body);
    let mut line = record.kind.name().to_string();
    for (field, &byte) in fields() {
        line += &format!(" {}={}", field.role, spell(field.class, byte));
    }
    let known = fields().filter_map(|(field, &byte)| Some((field.role, names.of(Thing::of_field(field.class, byte)?)?)));
    let known: Vec<String> = known.map(|(role, name)| format!("{role} {name}")).collect();
    let colon = if known.is_empty() { "" } else { ": " };
    format!("{line:<COMMENT$} # record {} at byte {}{colon}{}", record.number, record.position, known.join("; "))
}

/// Bytes that are no records, as numbers.
pub fn rest_lines(bytes: &[u8]) -> impl Iterator<Item = String> + '_ {
    bytes.chunks(24).map(|bytes| bytes.iter().map(u8::to_string).collect::<Vec<_>>().join(" "))
}
