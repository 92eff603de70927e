//! The statement file for those who write or read one: its kinds and fields as a table, a reader that says in words what it refuses, and a writer that refuses
//! at the call what the reader would refuse. `docs/FORMAT.md` says what the records mean.
//!
//! ```
//! use pezvoran::format::{read, Label, Type, Var, Writer};
//! use pezvoran::{verdict, Answer, Small, Table};
//!
//! // Label 5, forbidden; variable 2 holds it; the guest is granted variable 2.
//! let mut writer = Writer::<Small>::new();
//! let (journal, book) = (Label(5), Var(2));
//! writer.label(journal, Type::Plain, false)?;
//! writer.forbid(journal)?;
//! writer.variable(book, Label::TOP, None)?;
//! writer.held(book, journal)?;
//! writer.grant(book)?;
//! let fault = writer.grant(Var(3)).unwrap_err();
//! assert_eq!(fault.to_string(), "record 6 at byte 15, grant: field v is 3, which no earlier record declares; a declared variable with owner 0 is wanted");
//!
//! let file = writer.finish()?;
//! assert_eq!(verdict(&file, &mut Table::<Small>::new()), Answer::Leaks { label: 5, guest: 3, facts: 148 });
//! assert!(read::<Small>(&file)?.forbidden().eq([5]));
//! # Ok::<(), pezvoran::format::Fault>(())
//! ```
//!
//! Reader and writer are no part of what is proved. Tests hold them to the operations: they refuse the same files, with the same number and position.

mod class;
mod fault;
mod judging;
mod kind;
mod numbers;
mod reading;
mod sheet;
mod writer;

pub use class::Class;
pub use fault::{BadField, Fault};
pub use kind::{Field, Kind};
pub use numbers::{Key, Label, Name, Type, Var};
pub use reading::{read, records, Record, Records};
pub use sheet::Sheet;
pub use writer::Writer;
