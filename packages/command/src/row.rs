//! The rows of a table by what they stand for: S(7), H(3,3), P(5), T(0).

use pezvoran::{Edition, NAMES};
use std::fmt;

#[derive(Clone, Copy, Debug, PartialEq, Eq)]
pub enum Row {
    /// What a variable may hold.
    Variable(u8),
    /// What a property of a label's objects may hold.
    Property(u8, u8),
    /// What may stand on the prototype chain of a label's objects.
    Chain(u8),
    /// What may be thrown in a scope.
    Thrown(u8),
}

/// The rows of variables come first.
const VARIABLES: usize = 256;

impl Row {
    /// What the guest may hold.
    pub const GUEST: Row = Row::Variable(1);

    /// The row of a number below the edition's.
    pub fn of_number<E: Edition>(number: usize) -> Row {
        let (chains, thrown) = (E::ROWS - 2 * E::LABELS, E::ROWS - E::LABELS);
        match number {
            _ if number < VARIABLES => Row::Variable(number as u8),
            _ if number < chains => Row::Property(((number - VARIABLES) / NAMES) as u8, ((number - VARIABLES) % NAMES) as u8),
            _ if number < thrown => Row::Chain((number - chains) as u8),
            _ => Row::Thrown((number - thrown) as u8),
        }
    }

    /// Its number; labels and names are the edition's.
    pub fn number<E: Edition>(self) -> usize {
        match self {
            Row::Variable(variable) => variable.into(),
            Row::Property(label, name) => VARIABLES + NAMES * usize::from(label) + usize::from(name),
            Row::Chain(label) => E::ROWS - 2 * E::LABELS + usize::from(label),
            Row::Thrown(scope) => E::ROWS - E::LABELS + usize::from(scope),
        }
    }
}

impl fmt::Display for Row {
    fn fmt(&self, f: &mut fmt::Formatter<'_>) -> fmt::Result {
        match self {
            Row::Variable(variable) => write!(f, "S({variable})"),
            Row::Property(label, name) => write!(f, "H({label},{name})"),
            Row::Chain(label) => write!(f, "P({label})"),
            Row::Thrown(scope) => write!(f, "T({scope})"),
        }
    }
}

#[cfg(test)]
mod tests {
    use super::*;
    use pezvoran::{Large, Small, Table};

    fn every_row_has_one_name<E: Edition>() {
        for number in 0..E::ROWS {
            assert_eq!(Row::of_number::<E>(number).number::<E>(), number);
        }
    }

    /// The package finds the rows by the same numbers.
    fn rows_are_those_of_the_package<E: Edition>() {
        let mut table = Table::<E>::new();
        for (number, row) in table.words_mut().chunks_exact_mut(E::ROW_WORDS).enumerate() {
            row[0] = number as u64;
        }
        let last = (E::LABELS - 1) as u8;
        for (row, labels) in [
            (Row::Variable(7), table.variable(7)),
            (Row::Property(last, 31), table.property(last, 31)),
            (Row::Chain(last), table.chain(last)),
            (Row::Thrown(0), table.thrown(0)),
        ] {
            assert_eq!(table.row(row.number::<E>()), labels, "{row}");
        }
    }

    #[test]
    fn in_both_editions() {
        every_row_has_one_name::<Small>();
        every_row_has_one_name::<Large>();
        rows_are_those_of_the_package::<Small>();
        rows_are_those_of_the_package::<Large>();
    }
}
