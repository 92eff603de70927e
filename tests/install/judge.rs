//! A program that uses the package: judges in both editions.

use pezvoran::{verdict, Large, Small, Table};

fn main() {
    // Label 5, forbidden; variable 2 holds it; the guest is granted variable 2.
    let file = [2, 5, 1, 0, 3, 5, 5, 2, 0, 255, 8, 2, 5, 6, 2];
    println!("{}", verdict(&file, &mut Table::<Small>::new()));
    println!("{}", verdict(&file, &mut Table::<Large>::new()));
}
