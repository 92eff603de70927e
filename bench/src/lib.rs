//! Files that are slow to judge, and the solvers that are timed on them, in both editions.

pub mod archive;
pub mod clingo;
pub mod compared;
pub mod edition;
pub mod files;
pub mod hand;
pub mod mutate;
pub mod pairs;
pub mod passes;
pub mod sets;
pub mod side_by_side;
pub mod slowest;
pub mod stack;
pub mod table;
