//! Pezvoran for Rust: the verdict on a statement file, the check of a finished table, and the format of statement files.
//!
//! ```
//! use pezvoran::{check, verdict, Answer, Small, Table};
//!
//! // Label 5, forbidden; variable 2 holds it; the guest is granted variable 2.
//! let file = [2, 5, 1, 0, 3, 5, 5, 2, 0, 255, 8, 2, 5, 6, 2];
//! let mut table = Table::<Small>::new();
//! assert_eq!(verdict(&file, &mut table), Answer::Leaks { label: 5, guest: 3, facts: 148 });
//! assert!(table.guest().eq([3, 5]));
//! // Without the grant the guest never comes to hold it, and the finished table shows it.
//! assert_eq!(verdict(&file[..13], &mut table), Answer::Confined { facts: 48 });
//! assert_eq!(check(&file[..13], &table), Answer::Accepted { count: 0 });
//! ```
//!
//! There are two editions, [`Small`] with 64 labels and [`Large`] with 256. A [`Table`] belongs to one of them, and what it is lent to works in that one:
//!
//! ```
//! use pezvoran::{verdict, Answer, Large, Table};
//!
//! // The same with label 255.
//! let file = [2, 255, 1, 0, 3, 255, 5, 2, 0, 255, 8, 2, 255, 6, 2];
//! let mut table = Table::<Large>::new();
//! assert_eq!(verdict(&file, &mut table), Answer::Leaks { label: 255, guest: 3, facts: 148 });
//! assert!(table.guest().eq([3, 255]));
//! ```
//!
//! Plain words of any number can be lent as well, the edition then being named; a table of the other edition cannot:
//!
//! ```
//! # use pezvoran::{verdict, Answer, Large, Refusal};
//! let too_short = verdict::<Large>(&[], &mut vec![0; 35_839]);
//! assert_eq!(too_short, Answer::Refused(Refusal { number: 8, position: 0, guest: None }));
//! ```
//!
//! ```compile_fail,E0277
//! # use pezvoran::{verdict, Large, Small, Table};
//! verdict::<Small>(&[], &mut Table::<Large>::new());
//! ```
//!
//! Both operations take any bytes and any table, empty ones too. They keep nothing from one call to the next and take no memory but the stack, so threads
//! may call them at the same time, each with a table of its own. What a call takes of the stack is in [`Edition::VERDICT_STACK_BYTES`] and
//! [`Edition::CHECK_STACK_BYTES`]; a thread takes some for itself, and [`THREAD_STACK_BYTES`] more are enough for one that only calls:
//!
//! ```
//! use pezvoran::{verdict, Answer, Edition, Small, Table, THREAD_STACK_BYTES};
//! use std::thread::Builder;
//!
//! // Eight verdicts side by side, each with a table and a small stack of its own.
//! let small = || Builder::new().stack_size(Small::VERDICT_STACK_BYTES + THREAD_STACK_BYTES);
//! let file = [2, 5, 1, 0, 3, 5, 5, 2, 0, 255, 8, 2, 5, 6, 2];
//! let threads = [(); 8].map(|()| small().spawn(move || verdict(&file, &mut Table::<Small>::new())).expect("a thread"));
//! for thread in threads {
//!     assert_eq!(thread.join().expect("it ends"), Answer::Leaks { label: 5, guest: 3, facts: 148 });
//! }
//! ```
//!
//! The statement file itself is in [`format`](mod@format): its kinds and fields, what a record is refused for in words, and a writer.
//!
//! (What C has to see to, alignment and that file and table do not overlap, is in the types here.) The archives that
//! `tools/build` writes are linked in: those of the folder that `PEZVORAN_LIB_DIR` names, else of this repository, else of an installation that pkg-config finds.

mod answer;
mod archive;
mod edition;
pub mod format;
mod table;

pub use answer::{Answer, Refusal};
pub use edition::{Edition, Large, Small};
pub use table::{Labels, Lent, Table};

/// The bytes of the longest statement file.
pub const FILE_BYTES: usize = 32_768;

/// What a thread may take of its stack beside a call: one with this much more than the call takes is enough, if it does nothing but call.
pub const THREAD_STACK_BYTES: usize = 16_384;

/// Names are 0 to 31.
pub const NAMES: usize = 32;

/// The verdict: confined, leaks or refused.
///
/// Unless it refuses, the first [`TABLE_WORDS`](Edition::TABLE_WORDS) words of the table become the finished table, whatever stood there, and words beyond
/// stay as they are. A refusal leaves every word as it is.
pub fn verdict<E: Edition>(file: &[u8], table: &mut (impl Lent<E> + ?Sized)) -> Answer {
    let table = table.words_mut();
    // Sound for all slices: the proved contract has no precondition.
    let word = unsafe { E::VERDICT(file.as_ptr(), file.len(), table.as_mut_ptr(), table.len()) };
    Answer::of_word(word).expect("the verdict answers by its contract")
}

/// The check of a finished table, whoever made it: accepted or refused. An accepted table shows that the file is confined.
pub fn check<E: Edition>(file: &[u8], table: &(impl Lent<E> + ?Sized)) -> Answer {
    let table = table.words();
    // Sound for all slices, as above; the table is only read.
    let word = unsafe { E::CHECK(file.as_ptr(), file.len(), table.as_ptr(), table.len()) };
    Answer::of_word(word).expect("the check answers by its contract")
}
