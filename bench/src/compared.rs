//! One file given to the archive and its opponents: first that all agree, then how long each takes.

use crate::archive::{best, measured};
use crate::table::{limited, milliseconds, ratio, thousands};
use crate::{files, hand, passes};
use pezvoran::{Answer, Refusal};
use second::{read_in, solver, verdict_in, Edition};
use std::hint::black_box;
use std::time::Duration;

/// The opponents are run again and again for this long.
const TIME: Duration = Duration::from_millis(100);
/// A file whose verdict is shorter than this is measured in turn with the opponents, again and again.
pub const SHORT: Duration = Duration::from_millis(100);
/// How often.
pub const ROUNDS: usize = 5;
/// The count of passes is given up after this long; in the large edition, where slow files need some 100,000, sooner.
const fn counting(edition: Edition) -> Duration {
    match edition {
        Edition::Small => Duration::from_secs(20),
        Edition::Large => Duration::from_secs(1),
    }
}

pub struct Compared {
    pub name: String,
    pub bytes: usize,
    pub records: usize,
    pub answer: Answer,
    pub table: Vec<u64>,
    pub passes: Option<u64>,
    /// Times of the archive; none where they were over the limit.
    pub verdict: Option<Duration>,
    pub check: Option<Duration>,
    pub hand: Duration,
    pub second: Duration,
}

/// Runs all on a file that the edition reads; panics where two of them disagree.
pub fn compared(edition: Edition, name: &str, file: &[u8], limit: Duration) -> Compared {
    let program = read_in(edition, file).expect("the file is readable");
    let (answer, table) = hand::verdict(edition, file);
    assert_eq!(table, solver::solve(&program).table, "{name}: hand-written and second solver");
    let counted = passes::count(&program, counting(edition));
    if let Some((_, passed)) = &counted {
        assert_eq!(&table, passed, "{name}: hand-written solver and passes");
    }
    let (check, verdict) = measured(edition, file, &table, limit);
    if let Some(verdict) = &verdict {
        assert_eq!(answer, verdict.answer, "{name}: answers of hand-written solver and archive");
        assert_eq!(table, verdict.table, "{name}: tables of hand-written solver and archive");
    }
    if let Some(check) = &check {
        assert_eq!(check.answer, checked(answer), "{name}: check");
    }
    let mut lent = vec![0; edition.table_words()];
    let mut compared = Compared {
        name: name.to_string(),
        bytes: file.len(),
        records: files::records(file),
        answer,
        table,
        passes: counted.map(|(count, _)| count.passes),
        verdict: verdict.map(|verdict| verdict.time),
        check: check.map(|check| check.time),
        hand: Duration::MAX,
        second: Duration::MAX,
    };
    let short = compared.verdict.is_some_and(|time| time < SHORT);
    for round in 0..if short { ROUNDS } else { 1 } {
        if round > 0 {
            let (check, verdict) = measured(edition, file, &compared.table, limit);
            compared.verdict = least(compared.verdict, verdict.map(|verdict| verdict.time));
            compared.check = least(compared.check, check.map(|check| check.time));
        }
        let hand = best(TIME, || drop(black_box(hand::verdict(edition, file))));
        let second = best(TIME, || drop(black_box(verdict_in(edition, file, &mut lent))));
        (compared.hand, compared.second) = (compared.hand.min(hand), compared.second.min(second));
    }
    compared
}

/// What the check says of a finished table on which the verdict gave this answer.
pub fn checked(answer: Answer) -> Answer {
    match answer {
        Answer::Leaks { label, guest, .. } => {
            Answer::Refused(Refusal { number: 11, position: label.into(), guest: Some(guest) })
        }
        _ => Answer::Accepted { count: 0 },
    }
}

/// The shorter of two times.
pub fn least(a: Option<Duration>, b: Option<Duration>) -> Option<Duration> {
    a.into_iter().chain(b).min()
}

impl Compared {
    pub fn facts(&self) -> u64 {
        match self.answer {
            Answer::Confined { facts } | Answer::Leaks { facts, .. } => facts.into(),
            _ => 0,
        }
    }

    pub fn titles() -> Vec<String> {
        let titles = "file|bytes|records|facts|passes|verdict ms|hand ms|second ms|verdict / hand|verdict / second|check ms|check / hand";
        titles.split('|').map(str::to_string).collect()
    }

    /// The line of the table, in the order of the titles.
    pub fn line(&self, limit: Duration) -> Vec<String> {
        let against = |time: Option<Duration>, other: Duration| match time {
            Some(time) => ratio(time, other),
            None => format!("over {}", ratio(limit, other)),
        };
        vec![
            self.name.clone(),
            thousands(self.bytes as u64),
            thousands(self.records as u64),
            thousands(self.facts()),
            self.passes.map_or("not counted".to_string(), thousands),
            limited(self.verdict, limit),
            milliseconds(self.hand),
            milliseconds(self.second),
            against(self.verdict, self.hand),
            against(self.verdict, self.second),
            limited(self.check, limit),
            against(self.check, self.hand),
        ]
    }
}
