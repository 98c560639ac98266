//! The count of checks.

use super::table::{cell, grouped, inputs, sum, Row, NUMBERS};
use std::fmt::{Debug, Display};

/// The checks so far. One that fails is printed.
#[derive(Default)]
pub struct Tally {
    pub passed: u32,
    pub failed: u32,
    /// What each family met over all of its calls.
    families: Vec<(&'static str, Row)>,
}

impl Tally {
    /// Takes up what a family met over all of its calls.
    pub(super) fn add_family(&mut self, name: &'static str, row: Row) {
        self.families.push((name, row));
    }

    pub fn check(&mut self, holds: bool, failure: impl Display) {
        if holds {
            self.passed += 1;
        } else {
            self.failed += 1;
            println!("FAILED: {failure}");
        }
    }

    /// Prints what each family met, and all of them together, as a table for docs/.
    pub fn print_families(&self) {
        let line = |cells: Vec<String>| println!("| {} |", cells.join(" | "));
        let counts = |row: &Row| [Some(inputs(row))].iter().chain(row).map(|count| grouped(&cell(count))).collect();
        let names = ["family", "inputs"].map(str::to_string).into_iter();
        line(names.chain((0..NUMBERS).map(|number| number.to_string())).collect());
        line(vec!["---".to_string(); 2 + NUMBERS]);
        let all = self.families.iter().fold(Row::default(), |all, (_, row)| sum(&all, row));
        for (name, row) in self.families.iter().chain([&("all", all)]) {
            let counts: Vec<String> = counts(row);
            line([vec![name.to_string()], counts].concat());
        }
    }

    /// Checks that two values are equal, and shows both where they are not.
    pub fn same<T: PartialEq + Debug>(&mut self, name: &str, found: T, due: T) {
        self.check(found == due, format_args!("{name}: {found:?}, due {due:?}"));
    }
}
