//! The two editions: how many labels there are, and what follows from that number.

use crate::archive::{self, Check, Verdict};
use std::fmt::Debug;

/// The variables of either edition are 0 to 255.
pub(crate) const VARIABLES: usize = 256;

/// An edition of the analysis: [`Small`] or [`Large`]. A file that the small edition reads has the same verdict, label and count in the large one.
pub trait Edition: Operations + Copy + Debug + Eq {
    /// Labels are 0 up to but not including this number.
    const LABELS: usize;

    /// A verdict takes no more bytes of the stack, on any file.
    const VERDICT_STACK_BYTES: usize;

    /// A check takes no more bytes of the stack, on any file and table; it has two tables of its own there.
    const CHECK_STACK_BYTES: usize;

    /// Enough stack for a thread that calls either operation.
    const STACK_BYTES: usize;

    /// The words of a row: label l is bit l of their run.
    const ROW_WORDS: usize = Self::LABELS / u64::BITS as usize;

    /// The rows of a table: a row for each variable; for each label one under each name, its prototype chain, and what is thrown in it.
    const ROWS: usize = VARIABLES + (crate::NAMES + 2) * Self::LABELS;

    /// The words of a full table.
    const TABLE_WORDS: usize = Self::ROWS * Self::ROW_WORDS;
}

/// The functions of the archives. Not to be named outside, so that there are no other editions.
pub trait Operations {
    const VERDICT: Verdict;
    const CHECK: Check;
}

/// Document 01's edition: labels 0 to 63, a row is one word, a full table 2,432.
#[derive(Clone, Copy, Debug, PartialEq, Eq)]
pub enum Small {}

/// The large desk edition: labels 0 to 255, a row is four words, a full table 35,840.
#[derive(Clone, Copy, Debug, PartialEq, Eq)]
pub enum Large {}

impl Edition for Small {
    const LABELS: usize = 64;
    const VERDICT_STACK_BYTES: usize = 51_200;
    const CHECK_STACK_BYTES: usize = 68_608;
    const STACK_BYTES: usize = 98_304;
}

impl Edition for Large {
    const LABELS: usize = 256;
    const VERDICT_STACK_BYTES: usize = 58_368;
    const CHECK_STACK_BYTES: usize = 603_136;
    const STACK_BYTES: usize = 786_432;
}

impl Operations for Small {
    const VERDICT: Verdict = archive::verdict;
    const CHECK: Check = archive::check;
}

impl Operations for Large {
    const VERDICT: Verdict = archive::verdict_large;
    const CHECK: Check = archive::check_large;
}
