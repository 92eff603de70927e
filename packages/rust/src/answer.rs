//! The answer of an operation, read from its word.

use std::fmt;

/// What an operation answers.
#[derive(Clone, Copy, Debug, PartialEq, Eq)]
pub enum Answer {
    /// No guest can come to hold a forbidden label.
    Confined {
        facts: u32,
    },
    /// The guest with label `guest` may come to hold a forbidden label; `label` is the lowest. The guest of document 01 has label 3.
    Leaks {
        label: u8,
        guest: u8,
        facts: u32,
    },
    /// Nothing was refused; the count is 0 for the check.
    Accepted {
        count: u32,
    },
    Refused(Refusal),
    /// Which grants to withdraw, bit i for the i-th. No operation here answers this, nor the next.
    Choice(u16),
    /// No withdrawal of grants helps.
    NoneHelps,
}

/// Why, and where, file or table was refused.
#[derive(Clone, Copy, Debug, PartialEq, Eq)]
pub struct Refusal {
    /// 1 to 11; up to 16 have a word.
    pub number: u8,
    /// The record's first byte for 1 to 6, the file length for 7, the row for 10, the label for 11; 0 for 8 and 9.
    pub position: u64,
    /// The label of the guest that may hold the label, for 11 and no other.
    pub guest: Option<u8>,
}

impl Answer {
    /// A refusal from 1 to 15 has its number in bits 0 to 3 and its position above them, that of 11 up to bit 16. Any other word has 0 there and its outcome
    /// in bits 4 to 7: refusal 16 with its position from bit 8, or the label from bit 8, a choice from bit 8, a count from bit 32. The guest's label stands
    /// from bit 17. None for a word that is no answer.
    pub fn of_word(word: u64) -> Option<Answer> {
        let field = |from: u32, bits: u32| word >> from & u64::MAX >> (64 - bits);
        let (number, label, guest, count) = (field(0, 4) as u8, field(8, 8) as u8, field(17, 8) as u8, field(32, 22) as u32);
        let refused = |number, position, guest| Answer::Refused(Refusal { number, position, guest });
        let answer = match (number, field(4, 4)) {
            (0, 0) => Answer::Confined { facts: count },
            (0, 1) => Answer::Leaks { label, guest, facts: count },
            (0, 2) => Answer::Accepted { count },
            (0, 3) => refused(16, field(8, 56), None),
            (0, 4) => Answer::Choice(field(8, 12) as u16),
            (0, 5) => Answer::NoneHelps,
            (0, _) => return None,
            (11, _) => refused(11, field(4, 13), Some(guest)),
            _ => refused(number, field(4, 60), None),
        };
        (answer.word() == word).then_some(answer)
    }

    /// The word that stands for this answer.
    pub fn word(self) -> u64 {
        match self {
            Answer::Confined { facts } => u64::from(facts) << 32,
            Answer::Leaks { label, guest, facts } => 16 | u64::from(label) << 8 | u64::from(guest) << 17 | u64::from(facts) << 32,
            Answer::Accepted { count } => 32 | u64::from(count) << 32,
            Answer::Refused(Refusal { number: 16, position, .. }) => 48 | position << 8,
            Answer::Refused(Refusal { number, position, guest }) => u64::from(number) | position << 4 | u64::from(guest.unwrap_or(0)) << 17,
            Answer::Choice(choice) => 64 | u64::from(choice) << 8,
            Answer::NoneHelps => 80,
        }
    }
}

/// The line that the program `verdict` prints.
impl fmt::Display for Answer {
    fn fmt(&self, f: &mut fmt::Formatter<'_>) -> fmt::Result {
        match self {
            Answer::Confined { facts } => write!(f, "confined {facts}"),
            Answer::Leaks { label, facts, .. } => write!(f, "leaks {label} {facts}"),
            Answer::Accepted { .. } => write!(f, "accepted"),
            Answer::Refused(refusal) => write!(f, "refused {} {}", refusal.number, refusal.position),
            Answer::Choice(choice) => write!(f, "choice {choice}"),
            Answer::NoneHelps => write!(f, "none helps"),
        }
    }
}

impl Refusal {
    /// A line of plain words for the number.
    pub fn text(&self) -> &'static str {
        match self.number {
            1 => "the record's kind is unknown",
            2 => "the file ends inside the record",
            3 => "a variable of the record is not declared or not allowed there",
            4 => "a label or scope of the record is not declared or not allowed there",
            5 => "a name, key, mask, class, type or flag of the record is out of range",
            6 => "the record declares a name, label, variable, function or profile a second time",
            7 => "a function label has no function record",
            8 => "the table is not full: a full one has 2432 words, in the large edition 35840",
            9 => "the file is longer than 32768 bytes",
            10 => "the table lacks a fact that the rules give",
            11 => "by the table the guest may hold a forbidden label",
            _ => "no refusal has this number",
        }
    }
}

/// The plain words, with what the position means.
impl fmt::Display for Refusal {
    fn fmt(&self, f: &mut fmt::Formatter<'_>) -> fmt::Result {
        let place = match self.number {
            1..=6 => "record at byte",
            7 => "file length",
            10 => "row",
            11 => "label",
            _ => return f.write_str(self.text()),
        };
        write!(f, "{} ({place} {})", self.text(), self.position)
    }
}

impl std::error::Error for Refusal {}
