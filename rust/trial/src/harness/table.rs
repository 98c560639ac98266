//! The lines of a table that a run prints.

use super::places::PLACED;

/// 0 and the eleven refusals.
pub const NUMBERS: usize = 12;

/// A line of a table: how often each number was answered, none where it can't be.
pub type Row = [Option<u64>; NUMBERS];

/// How many different bits were shown with 1, 4 and 5, none where there can't be any.
pub type Shown = [Option<u64>; PLACED.len()];

/// How many inputs a line is of.
pub fn inputs(row: &Row) -> u64 {
    row.iter().flatten().sum()
}

/// The line of all that two lines are of.
pub fn sum(row: &Row, other: &Row) -> Row {
    std::array::from_fn(|number| match (row[number], other[number]) {
        (Some(count), Some(more)) => Some(count + more),
        (count, more) => count.or(more),
    })
}

/// What stands in a line for a number.
pub fn cell(count: &Option<u64>) -> String {
    count.map_or("-".to_string(), |count| count.to_string())
}

/// A number's digits in groups of three.
pub fn grouped(digits: &str) -> String {
    let groups = digits.as_bytes().rchunks(3).rev().map(String::from_utf8_lossy);
    groups.collect::<Vec<_>>().join(",")
}

/// The head of the lines that `run` prints.
pub fn print_head() {
    print!("{:<10}{:<16}{:>9}", "family", "call", "inputs");
    (0..NUMBERS).for_each(|number| print!("{number:>9}"));
    PLACED.iter().for_each(|number| print!("{:>9}", format!("bits {number}")));
    println!();
}

pub fn print_row(family: &str, call: &str, row: &Row, shown: &Shown) {
    print!("{family:<10}{call:<16}{:>9}", inputs(row));
    row.iter().chain(shown).for_each(|count| print!("{:>9}", cell(count)));
    println!();
}
