//! A second implementation of document 01 and of requests 01, 02, 04 and 13, written from those papers alone, to compare the first with.
//!
//! `reader` reads a statement file, `solver` gives table and verdict, `check` checks a finished table,
//! `report` gives the program's lines, `generate` makes files, and `machine` walks through the handset machine.
//!
//! A function whose name ends with `_in` takes the edition; the one without is that of the small edition. Where a
//! program is given, its edition is the program's.

pub mod check;
pub mod edition;
pub mod fields;
pub mod generate;
pub mod graph;
pub mod keys;
pub mod machine;
pub mod prng;
pub mod program;
pub mod reader;
pub mod report;
pub mod row;
pub mod rows;
pub mod solver;

pub use check::check_in;
pub use edition::Edition;
pub use reader::{read_in, Refusal};
pub use report::report_in;
pub use solver::{verdict_in, Answer, Verdict};
