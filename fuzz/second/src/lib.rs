//! The second implementation under the C interface of the archive: the same parameters, and the answer in the word that `include/pezvoran.h` takes apart.

use second::{check_in, verdict_in, Edition, Refusal, Verdict};
use std::slice;

const LEAKS: u64 = 1 << 4;
const ACCEPTED: u64 = 2 << 4;
/// The guest's label, beside the label of leaks and of refusal 11.
const GUEST: u64 = 3 << 17;

fn refused(refusal: Refusal) -> u64 {
    let guest = if refusal.number == 11 { GUEST } else { 0 };
    u64::from(refusal.number) | (refusal.position as u64) << 4 | guest
}

fn verdict_word(edition: Edition, file: &[u8], table: &mut [u64]) -> u64 {
    match verdict_in(edition, file, table) {
        Err(refusal) => refused(refusal),
        Ok(answer) => {
            let count = u64::from(answer.facts) << 32;
            match answer.verdict {
                Verdict::Confined => count,
                Verdict::Leaks(label) => count | GUEST | u64::from(label) << 8 | LEAKS,
            }
        }
    }
}

fn check_word(edition: Edition, file: &[u8], table: &[u64]) -> u64 {
    check_in(edition, file, table).map_or_else(refused, |()| ACCEPTED)
}

/// Makes the C functions of an edition.
macro_rules! operations {
    ($edition:expr, $verdict:ident, $check:ident) => {
        /// # Safety
        /// `file` and `table` point to as many bytes and words as their lengths say.
        #[no_mangle]
        pub unsafe extern "C" fn $verdict(file: *const u8, file_length: usize, table: *mut u64, table_length: usize) -> u64 {
            verdict_word($edition, slice::from_raw_parts(file, file_length), slice::from_raw_parts_mut(table, table_length))
        }

        /// # Safety
        /// `file` and `table` point to as many bytes and words as their lengths say.
        #[no_mangle]
        pub unsafe extern "C" fn $check(file: *const u8, file_length: usize, table: *const u64, table_length: usize) -> u64 {
            check_word($edition, slice::from_raw_parts(file, file_length), slice::from_raw_parts(table, table_length))
        }
    };
}

operations!(Edition::Small, second_verdict, second_check);
operations!(Edition::Large, second_verdict_large, second_check_large);
