//! Tests of both editions.

/// Makes a test of each function for each edition.
macro_rules! in_both_editions {
    ($($test:ident)*) => {
        mod small {
            $(#[test] fn $test() { super::$test::<pezvoran::Small>() })*
        }
        mod large {
            $(#[test] fn $test() { super::$test::<pezvoran::Large>() })*
        }
    };
}
