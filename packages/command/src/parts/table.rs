//! `table`: the rows of a kept table by name.

use super::check::{show, Checked, Given};
use super::Part;
use crate::comparison::{meant, Comparison};
use crate::names::{Names, Thing};
use crate::output::Output;
use crate::report::{edition_name, json_line, spaced, Object};
use crate::row::Row;
use crate::source::{self, Source};
use crate::status::{warn, Status, Trouble};
use pezvoran::{Answer, Edition, NAMES};
use serde::Serialize;

/// The rows of a kept table by name, with the labels that they hold
///
/// S(7) is what variable 7 may hold, H(3,5) what property 5 of label 3's objects may hold, P(5) what may stand on the prototype chain of label 5's objects, and
/// T(0) what may be thrown in scope 0. What the guest may hold, S(1), comes first. Rows that hold nothing are left out, and H(3,0-31) is a run of names with
/// the same labels. A table that is not the finished one of the file is shown all the same, but ends with 2; what counts as absent, row 0 and labels that are
/// not declared, is left out.
#[derive(clap::Args)]
#[command(after_help = "\
Examples:
  pezvoran table FILE FILE.table                 all rows that hold something
  pezvoran table FILE FILE.table S7 H3,5 P5 T0   these rows, empty or not; v7 is S7
  pezvoran table FILE FILE.table l5              the rows of label 5: H(5,..), P(5) and T(5)
  pezvoran table FILE FILE.table --holding 5     the rows that hold label 5")]
pub struct Table {
    #[command(flatten)]
    given: Given,

    /// Rows, variables or labels: S7 or v7, H3,5, P5, T0, l5
    #[arg(value_name = "WHAT")]
    asked: Vec<String>,

    /// Only rows that hold this label
    #[arg(long, value_name = "LABEL")]
    holding: Option<u8>,

    /// What variables, labels and names are called, to be shown in comments
    #[arg(long, value_name = "NAMES")]
    names: Option<Source>,

    /// Print an object of JSON, on one line
    #[arg(long)]
    json: bool,
}

impl Part for Table {
    fn run<E: Edition>(&self, output: &mut Output) -> Result<Status, Trouble> {
        let (checked, names, rows) = match self.read::<E>(output) {
            Ok(read) => read,
            Err(trouble) => return self.given.trouble(output, self.json, &trouble),
        };
        let Some(table) = checked.table.table::<E>().filter(|_| is_readable(&checked)) else {
            return show(&checked.report, self.json, output);
        };
        let shown = meant(&checked.file.bytes, &table);
        let held = |row: Row| shown.row(row.number::<E>()).collect::<Vec<u8>>();
        let rows = rows.into_iter().map(|asked| (asked.row, asked.by_itself, held(asked.row)));
        let rows = rows.filter(|(_, by_itself, held)| self.is_shown(*by_itself, held));
        let rows: Vec<(Row, Vec<u8>)> = rows.map(|(row, _, held)| (row, held)).collect();
        let difference = Comparison::of(&checked.file.bytes, &table).words();
        if self.json {
            json_line(output, &Rows::of::<E>(&checked, &rows, difference.as_deref()))?;
        } else {
            runs(&rows).into_iter().try_for_each(|run| output.line(format_args!("{}", run.line(&names))))?;
        }
        Ok(self.finished(difference.as_deref()))
    }
}

/// A row that is asked for: by itself, or as one of many, which are left out where they hold nothing.
#[derive(Clone, Copy)]
struct Asked {
    row: Row,
    by_itself: bool,
}

/// Whether the file can be read; of others a table says nothing.
fn is_readable(checked: &Checked<'_>) -> bool {
    !matches!(checked.report.answer, Answer::Refused(refusal) if refusal.number < 10)
}

impl Table {
    fn read<E: Edition>(&self, output: &Output) -> Result<(Checked<'_>, Names, Vec<Asked>), Trouble> {
        source::once(self.names.iter().chain(self.given.sources()))?;
        if let Some(label) = self.holding.filter(|&label| usize::from(label) >= E::LABELS) {
            return Err(Trouble::of(format!("--holding {label}: labels of the {} edition are 0 to {}", edition_name::<E>(), E::LABELS - 1)));
        }
        Ok((self.given.check::<E>(output)?, Names::read(self.names.as_ref())?, self.rows::<E>()?))
    }

    /// The rows that are asked for; all of them, the guest's first, where none are.
    fn rows<E: Edition>(&self) -> Result<Vec<Asked>, Trouble> {
        if self.asked.is_empty() {
            let others = (0..E::ROWS).map(Row::of_number::<E>).filter(|&row| row != Row::GUEST);
            return Ok(among_many([Row::GUEST].into_iter().chain(others)));
        }
        let rows: Result<Vec<_>, _> = self.asked.iter().map(|word| asked::<E>(word)).collect();
        Ok(rows?.concat())
    }

    /// Says where the table is not the finished one of the file. (That of a file that leaks is refused 11 by the check, and is finished all the same.)
    fn finished(&self, difference: Option<&str>) -> Status {
        let Some(words) = difference else {
            return Status::Good;
        };
        let [file, table] = self.given.sources();
        warn(format!("{table}: is not the finished table of {file}: {words}"));
        Status::Refused
    }

    fn is_shown(&self, by_itself: bool, held: &[u8]) -> bool {
        match self.holding {
            Some(label) => held.contains(&label),
            None => by_itself || !held.is_empty(),
        }
    }
}

fn among_many(rows: impl Iterator<Item = Row>) -> Vec<Asked> {
    rows.map(|row| Asked { row, by_itself: false }).collect()
}

/// The rows that a word asks for.
fn asked<E: Edition>(word: &str) -> Result<Vec<Asked>, Trouble> {
    let wrong = || Trouble::of(format!("`{word}` is none of S7, v7, H3,5, P5, T0 and l5 with numbers of the edition"));
    let (letter, numbers) = letter_and_numbers(word).ok_or_else(wrong)?;
    let is_label = |label: u8| usize::from(label) < E::LABELS;
    let row = match (letter, &numbers[..]) {
        ("S" | "v", &[variable]) => Row::Variable(variable),
        ("H", &[label, name]) if is_label(label) && usize::from(name) < NAMES => Row::Property(label, name),
        ("P", &[label]) if is_label(label) => Row::Chain(label),
        ("T", &[scope]) if is_label(scope) => Row::Thrown(scope),
        ("l", &[label]) if is_label(label) => {
            let properties = (0..NAMES as u8).map(|name| Row::Property(label, name));
            return Ok(among_many(properties.chain([Row::Chain(label), Row::Thrown(label)])));
        }
        _ => return Err(wrong()),
    };
    Ok(vec![Asked { row, by_itself: true }])
}

/// `H3,5` and `H(3,5)` are the letter and both numbers.
fn letter_and_numbers(word: &str) -> Option<(&str, Vec<u8>)> {
    let (letter, rest) = word.split_at_checked(1)?;
    let numbers = rest.strip_prefix('(').map_or(Some(rest), |rest| rest.strip_suffix(')'))?;
    Some((letter, numbers.split(',').map(|number| number.parse().ok()).collect::<Option<_>>()?))
}

/// Rows that are shown on one line: one row, or those of one label under names that follow one another, with the same labels.
struct Run<'a> {
    first: Row,
    last: Row,
    held: &'a [u8],
}

fn runs(rows: &[(Row, Vec<u8>)]) -> Vec<Run<'_>> {
    let mut runs: Vec<Run<'_>> = Vec::new();
    for (row, held) in rows {
        match runs.last_mut() {
            Some(run) if follows(run.last, *row) && run.held == held => run.last = *row,
            _ => runs.push(Run { first: *row, last: *row, held }),
        }
    }
    runs
}

fn follows(before: Row, after: Row) -> bool {
    matches!((before, after), (Row::Property(l, n), Row::Property(m, o)) if l == m && n + 1 == o)
}

impl Run<'_> {
    fn line(&self, names: &Names) -> String {
        let row = match (self.first, self.last) {
            (Row::Property(label, first), Row::Property(_, last)) if first != last => format!("H({label},{first}-{last})"),
            (row, _) => row.to_string(),
        };
        let line = format!("{row}{}", spaced(self.held));
        let what = self.what(names);
        let held: Vec<&str> = self.held.iter().filter_map(|&label| names.of(Thing::Label(label))).collect();
        match (what, &held[..]) {
            (None, []) => line,
            (Some(what), []) => format!("{line:<40} # {what}"),
            (what, held) => format!("{line:<40} # {}: {}", what.unwrap_or(row), held.join("; ")),
        }
    }

    /// What the row stands for, by the names that are known.
    fn what(&self, names: &Names) -> Option<String> {
        let label = |label| names.of(Thing::Label(label));
        match (self.first, self.last) {
            (Row::GUEST, _) => None,
            (Row::Variable(variable), _) => names.of(Thing::Variable(variable)).map(String::from),
            (Row::Property(object, name), last) if last == self.first => {
                Some(format!("{}, {}", label(object)?, names.of(Thing::Name(name)).map_or_else(|| name.to_string(), String::from)))
            }
            (Row::Property(object, _), _) => label(object).map(String::from),
            (Row::Chain(object), _) => Some(format!("{}, chain", label(object)?)),
            (Row::Thrown(0), _) => None,
            (Row::Thrown(scope), _) => Some(format!("{}, thrown", label(scope)?)),
        }
    }
}

/// The rows for programs.
#[derive(Serialize)]
struct Rows<'a> {
    #[serde(flatten)]
    object: Object<'a>,
    /// Whether the table is the finished one of the file.
    finished: bool,
    #[serde(skip_serializing_if = "Option::is_none")]
    difference: Option<&'a str>,
    rows: Vec<Listed<'a>>,
}

#[derive(Serialize)]
struct Listed<'a> {
    row: usize,
    name: String,
    labels: &'a [u8],
}

impl Rows<'_> {
    fn of<'a, E: Edition>(checked: &'a Checked<'a>, rows: &'a [(Row, Vec<u8>)], difference: Option<&'a str>) -> Rows<'a> {
        let rows = rows.iter().map(|(row, held)| Listed { row: row.number::<E>(), name: row.to_string(), labels: held });
        Rows { object: checked.report.object(), finished: difference.is_none(), difference, rows: rows.collect() }
    }
}
