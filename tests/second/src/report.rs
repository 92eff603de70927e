//! The lines that the program `verdict` is to print for a file.

use crate::edition::Edition;
use crate::program::BAG;
use crate::reader::read_in;
use crate::solver::{solve, Verdict};

/// The lines in the small edition.
pub fn report(file: &[u8]) -> String {
    report_in(Edition::Small, file)
}

/// Verdict line and guest line, or the line of a refusal; each ends with a newline.
pub fn report_in(edition: Edition, file: &[u8]) -> String {
    let answer = match read_in(edition, file) {
        Err(refusal) => return format!("refused {} {}\n", refusal.number, refusal.position),
        Ok(program) => solve(&program),
    };
    let guest: String = edition.row(&answer.table, edition.s(BAG)).labels().map(|l| format!(" {l}")).collect();
    match answer.verdict {
        Verdict::Confined => format!("confined {}\nguest{guest}\n", answer.facts),
        Verdict::Leaks(l) => format!("leaks {l} {}\nguest{guest}\n", answer.facts),
    }
}
