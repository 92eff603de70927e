//! Tables in Markdown, and figures with their units.

use std::time::Duration;

/// Prints a table; the first row holds the titles.
pub fn print(rows: &[Vec<String>]) {
    for (i, row) in rows.iter().enumerate() {
        println!("| {} |", row.join(" | "));
        if i == 0 {
            println!("|{}", "---|".repeat(row.len()));
        }
    }
    println!();
}

/// A time in milliseconds.
pub fn milliseconds(time: Duration) -> String {
    format!("{:.3}", time.as_secs_f64() * 1e3)
}

/// A time in milliseconds, or that it was over the limit.
pub fn limited(time: Option<Duration>, limit: Duration) -> String {
    time.map_or_else(|| format!("over {}", limit.as_millis()), milliseconds)
}

/// How many times as long the first takes.
pub fn ratio(time: Duration, other: Duration) -> String {
    format!("{:.2}", time.as_secs_f64() / other.as_secs_f64())
}

/// A number with its thousands set apart.
pub fn thousands(number: u64) -> String {
    let digits = number.to_string();
    let groups: Vec<&str> =
        digits.as_bytes().rchunks(3).rev().map(|g| std::str::from_utf8(g).expect("digits")).collect();
    groups.join(",")
}
