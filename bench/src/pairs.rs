//! Two calls of the archive that must answer alike: what four words a row cost where one would do, by a file in both
//! editions; what outside keys cost, by a file under class keys and the same under outside keys; what returns at the top
//! level cost, and a profile whose class has every name, by a file without and with them.

use crate::archive::measured;
use crate::compared::{checked, least, ROUNDS, SHORT};
use crate::hand;
use crate::table::{limited, ratio};
use second::Edition;
use std::time::Duration;

/// The times of verdict and check in both calls; none where they were over the limit.
pub struct Pair {
    pub name: String,
    pub verdicts: [Option<Duration>; 2],
    pub checks: [Option<Duration>; 2],
}

/// Makes the calls in turn, each on a file that its edition reads; panics where an answer is not as it should be.
pub fn measure(name: &str, calls: [(Edition, &[u8]); 2], limit: Duration) -> Pair {
    let finished = calls.map(|(edition, file)| hand::verdict(edition, file));
    assert_eq!(finished[0].0, finished[1].0, "{name}: the two answers");
    let mut pair = Pair { name: name.to_string(), verdicts: [None; 2], checks: [None; 2] };
    for round in 0..ROUNDS {
        for (i, ((edition, file), (answer, table))) in calls.into_iter().zip(&finished).enumerate() {
            let (check, verdict) = measured(edition, file, table, limit);
            if let Some(check) = &check {
                assert_eq!(check.answer, checked(*answer), "{name}: check");
            }
            if let Some(verdict) = &verdict {
                assert_eq!((verdict.answer, &verdict.table), (*answer, table), "{name}: verdict");
            }
            pair.verdicts[i] = least(pair.verdicts[i], verdict.map(|verdict| verdict.time));
            pair.checks[i] = least(pair.checks[i], check.map(|check| check.time));
        }
        if round == 0 && pair.verdicts.iter().any(|time| time.is_none_or(|time| time > SHORT)) {
            break;
        }
    }
    pair
}

impl Pair {
    /// The titles, with what the times of the two calls are headed by.
    pub fn titles(verdicts: [&str; 2], checks: [&str; 2]) -> Vec<String> {
        let mut titles = vec!["file".to_string()];
        for [first, second] in [verdicts, checks] {
            titles.extend([format!("{first} ms"), format!("{second} ms"), "ratio".to_string()]);
        }
        titles
    }

    /// The line of the table, in the order of the titles.
    pub fn line(&self, limit: Duration) -> Vec<String> {
        let mut line = vec![self.name.clone()];
        for [first, second] in [self.verdicts, self.checks] {
            let ratio = first.zip(second).map_or(String::new(), |(first, second)| ratio(second, first));
            line.extend([limited(first, limit), limited(second, limit), ratio]);
        }
        line
    }
}
