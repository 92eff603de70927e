//! Why there is a refusal, in words: what is wrong with the file or the table, and what would be good there. Number and position are the operation's; what is
//! found here stands beside them.

use crate::comparison::difference;
use crate::kept::Kept;
use crate::report::edition_name;
use crate::row::Row;
use crate::source::Input;
use pezvoran::format::{read, records, Fault, Kind, Sheet};
use pezvoran::{check, verdict, Answer, Edition, Large, Refusal, Small, Table, FILE_BYTES};
use serde::Serialize;

#[derive(Debug, Default, Serialize)]
pub struct Reason {
    /// One line for people.
    pub words: String,
    /// The record, counted from 1.
    #[serde(skip_serializing_if = "Option::is_none")]
    record: Option<usize>,
    #[serde(skip_serializing_if = "Option::is_none")]
    kind: Option<&'static str>,
    #[serde(skip_serializing_if = "Option::is_none")]
    field: Option<&'static str>,
    #[serde(skip_serializing_if = "Option::is_none")]
    value: Option<u8>,
    /// The function labels without a record.
    #[serde(skip_serializing_if = "Option::is_none")]
    functions: Option<Vec<u8>>,
    /// The row that lacks something.
    #[serde(skip_serializing_if = "Option::is_none")]
    row: Option<String>,
    /// A label that it lacks, where one could be shown.
    #[serde(skip_serializing_if = "Option::is_none")]
    lacks: Option<u8>,
}

impl Reason {
    /// Why an operation refused the file, or the table that it was lent.
    pub fn of<E: Edition>(refusal: Refusal, file: &Input, table: Option<&Kept>) -> Reason {
        let full = table.and_then(Kept::table::<E>);
        match (refusal.number, table, full) {
            (8, Some(table), _) => said(too_short::<E>(table.words.len())),
            (10, _, Some(table)) => gap::<E>(&file.bytes, &table, refusal.position as usize),
            (11, _, Some(_)) => said(forbidden::<E>(&file.bytes, refusal.position as u8)),
            _ => {
                let reason = Reason::of_file::<E>(refusal, file);
                Reason { words: reason.words + text(&file.bytes), ..reason }
            }
        }
    }

    /// Why an operation refused the file, whatever table it was lent.
    pub fn of_file<E: Edition>(refusal: Refusal, file: &Input) -> Reason {
        match (refusal.number, fault::<E>(refusal, &file.bytes)) {
            (9, _) => said(too_long(file)),
            (_, None) => said(refusal.to_string()),
            (_, Some(fault)) => Reason {
                words: format!("{fault}{}", larger::<E>(&file.bytes, &fault)),
                record: fault.record,
                kind: fault.kind.map(Kind::name),
                field: fault.field.map(|field| field.role),
                value: fault.field.map(|field| field.value),
                functions: (fault.number == 7).then(|| missing::<E>(&file.bytes)),
                ..Reason::default()
            },
        }
    }
}

fn said(words: String) -> Reason {
    Reason { words, ..Reason::default() }
}

/// What the operations refuse of a file, which does not hang on the table: the check goes over the file once and searches for nothing.
pub fn refusal<E: Edition>(file: &[u8]) -> Option<Refusal> {
    match check(file, &Table::<E>::new()) {
        Answer::Refused(refusal) if refusal.number < 10 => Some(refusal),
        _ => None,
    }
}

/// What the reader of the package finds, if it refuses the same at the same place.
pub fn fault<E: Edition>(refusal: Refusal, file: &[u8]) -> Option<Fault> {
    read::<E>(file).err().filter(|fault| fault.refusal() == refusal)
}

/// A hint where only the edition is in the way: the large one takes the field, whatever it may find behind it.
fn larger<E: Edition>(file: &[u8], fault: &Fault) -> &'static str {
    let is_beyond = fault.field.is_some_and(|field| usize::from(field.value) >= E::LABELS);
    if E::LABELS != Small::LABELS || fault.number != 4 || !is_beyond {
        return "";
    }
    match read::<Large>(file) {
        Ok(_) => ". The large edition reads this file: try --large",
        Err(other) if (other.position, other.field) != (fault.position, fault.field) => ". The large edition has this label: try --large",
        Err(_) => "",
    }
}

/// A hint where a text was taken for a statement file. No record begins with a letter, a digit or a mark.
fn text(file: &[u8]) -> &'static str {
    if is_text(file) {
        ". It looks like text: pezvoran build makes a statement file of one"
    } else {
        ""
    }
}

/// Whether the bytes are UTF-8 without control characters. Of a file that is too long the last character may be cut short.
fn is_text(file: &[u8]) -> bool {
    let is_whole = match std::str::from_utf8(file) {
        Ok(_) => true,
        Err(error) => error.error_len().is_none() && file.len() > FILE_BYTES,
    };
    is_whole && file.iter().all(|&byte| byte >= b' ' || byte.is_ascii_whitespace())
}

/// The function labels without a function record in a file whose records are good.
pub fn missing<E: Edition>(file: &[u8]) -> Vec<u8> {
    let mut sheet = Sheet::<E>::new();
    for record in records(file) {
        if sheet.take(record.kind.byte(), record.body).is_err() {
            break;
        }
    }
    sheet.missing().collect()
}

fn too_short<E: Edition>(words: usize) -> String {
    let (edition, full) = (edition_name::<E>(), E::TABLE_WORDS);
    let hint = if words == Small::TABLE_WORDS { ". It is as long as a table of the small edition: try without --large" } else { "" };
    format!("the table has {words} words; a full one of the {edition} edition has {full}{hint}")
}

/// Not more of the file was read than shows that it is too long.
fn too_long(file: &Input) -> String {
    match file.length {
        Some(length) if length > FILE_BYTES as u64 => format!("the file has {length} bytes; {FILE_BYTES} at most are wanted"),
        _ => format!("the file has more than {FILE_BYTES} bytes; {FILE_BYTES} at most are wanted"),
    }
}

/// What the row lacks that the check named: something that the finished table has there, or else something that follows from what the table holds beyond it.
fn gap<E: Edition>(file: &[u8], table: &Table<E>, row: usize) -> Reason {
    let mut finished = Table::<E>::new();
    verdict(file, &mut finished);
    let name = Row::of_number::<E>(row);
    let lacks = difference(&finished, table, row).next();
    let (lacks, words) = match lacks {
        Some(label) => (lacks, format!("row {row} is {name}: it lacks label {label}, which the finished table has there")),
        None => beyond(file, table, &finished, row),
    };
    Reason { words, row: Some(name.to_string()), lacks, ..Reason::default() }
}

/// The row has all that it has in the finished table. So the table holds facts that the finished one has not, and what the row lacks follows from these.
fn beyond<E: Edition>(file: &[u8], table: &Table<E>, finished: &Table<E>, row: usize) -> (Option<u8>, String) {
    let name = Row::of_number::<E>(row);
    let labels: Vec<u8> = read::<E>(file).map(|sheet| sheet.labels().collect()).unwrap_or_default();
    let extra = (1..E::ROWS).find_map(|row| difference(table, finished, row).find(|label| labels.contains(label)).map(|label| (row, label)));
    let held = extra.map(|(row, label)| format!(", such as label {label} in {}", Row::of_number::<E>(row))).unwrap_or_default();
    let lacks = labels.into_iter().find(|&label| is_all_that_lacks(file, table, row, label));
    let what = lacks.map_or("a label that".into(), |label| format!("label {label}, which"));
    (lacks, format!("row {row} is {name}: it lacks {what} follows from what the table holds beyond the finished one{held}"))
}

/// Whether the label alone is what the row lacks. With it the row would lack nothing more; and what the rules tell it of a table they tell it of a larger
/// one, so that nothing else was lacking before.
fn is_all_that_lacks<E: Edition>(file: &[u8], table: &Table<E>, row: usize, label: u8) -> bool {
    if table.row(row).any(|held| held == label) {
        return false;
    }
    let mut more = table.clone();
    more.words_mut()[row * E::ROW_WORDS + usize::from(label) / 64] |= 1 << (label % 64);
    match check(file, &more) {
        Answer::Refused(Refusal { number: 10, position, .. }) => position > row as u64,
        _ => true,
    }
}

fn forbidden<E: Edition>(file: &[u8], label: u8) -> String {
    let record = records(file).find(|record| record.kind == Kind::Forbid && record.body == [label]);
    let by = record.map(|record| format!(", which record {} at byte {} forbids", record.number, record.position)).unwrap_or_default();
    let finished = match verdict(file, &mut Table::<E>::new()) {
        Answer::Leaks { .. } => "the file leaks, and no table of it is accepted",
        _ => "the finished table is another, and is accepted",
    };
    format!("by the table the guest may hold label {label}{by}; {finished}")
}
