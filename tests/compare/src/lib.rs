//! What the comparisons share: an edition of the archive as the second implementation has it, and the second implementation's answers as the archive's.

use pezvoran::{verdict, Answer, Refusal, Table};
use second::program::GUEST;
use second::{check_in, verdict_in, Edition, Verdict};

/// The same edition of the second implementation.
pub fn edition<E: pezvoran::Edition>() -> Edition {
    Edition::BOTH.into_iter().find(|edition| edition.labels() == E::LABELS).expect("both have the same editions")
}

/// The archive's answer and the table that it leaves.
pub fn judged<E: pezvoran::Edition>(file: &[u8]) -> (Answer, Vec<u64>) {
    let mut table = Table::<E>::new();
    (verdict(file, &mut table), table.words().to_vec())
}

fn refused(refusal: second::Refusal) -> Answer {
    let guest = (refusal.number == 11).then_some(GUEST);
    Answer::Refused(Refusal { number: refusal.number, position: refusal.position as u64, guest })
}

/// The second implementation's verdict; the lent table is written.
pub fn second_verdict<E: pezvoran::Edition>(file: &[u8], table: &mut [u64]) -> Answer {
    match verdict_in(edition::<E>(), file, table) {
        Err(refusal) => refused(refusal),
        Ok(answer) => match answer.verdict {
            Verdict::Confined => Answer::Confined { facts: answer.facts },
            Verdict::Leaks(label) => Answer::Leaks { label, guest: GUEST, facts: answer.facts },
        },
    }
}

/// The second implementation's check.
pub fn second_check<E: pezvoran::Edition>(file: &[u8], table: &[u64]) -> Answer {
    check_in(edition::<E>(), file, table).map_or_else(refused, |()| Answer::Accepted { count: 0 })
}
