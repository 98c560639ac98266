//! What a run met.

use super::places::{Bits, PLACED};
use super::table::{Row, Shown, NUMBERS};
use super::{Call, Family, Floor, Tally, SHOWN};
use crate::inputs::Random;

/// How often a call answered each number, with which bits, and on how many inputs the programs differ.
#[derive(Clone, Default)]
struct Met {
    numbers: [u64; NUMBERS],
    bits: Bits,
    differing: u64,
}

impl Met {
    /// How often a call answered each number; none where it can't and did not.
    fn row(&self, call: &Call) -> Row {
        std::array::from_fn(|number| {
            let count = self.numbers[number];
            (count > 0 || call.gives(number)).then_some(count)
        })
    }

    /// How many different bits a call showed with each number that has a place; none where it can't and did not.
    fn shown(&self, call: &Call) -> Shown {
        PLACED.map(|number| {
            let count = self.bits.count(number);
            (count > 0 || call.places.iter().any(|(placed, _)| *placed == number)).then_some(count)
        })
    }
}

/// What a run met, by call, and the first inputs that differ.
pub struct Counts {
    met: Vec<Met>,
    shown: Vec<String>,
}

/// An answer as in C taken apart: its number, and the bit.
pub fn apart(answer: u32) -> (u8, u32) {
    (answer as u8, answer >> 8)
}

/// An answer in words.
pub fn told(answer: u32) -> String {
    let (number, bit) = apart(answer);
    format!("{number} at bit {bit}")
}

impl Counts {
    pub fn new(calls: &[Call]) -> Counts {
        Counts { met: vec![Met::default(); calls.len()], shown: Vec::new() }
    }

    pub fn add(&mut self, other: Counts) {
        for (ours, theirs) in self.met.iter_mut().zip(other.met) {
            ours.differing += theirs.differing;
            ours.bits.add(theirs.bits);
            for (count, more) in ours.numbers.iter_mut().zip(theirs.numbers) {
                *count += more;
            }
        }
        self.shown.extend(other.shown);
    }

    /// Counts a call by what it is due to answer. `name` names the field at fault, where that is one that moves.
    pub fn meet(&mut self, call: usize, due: u32, name: impl FnOnce(u8, u32) -> Option<&'static str>) {
        let (number, bit) = apart(due);
        let met = &mut self.met[call];
        met.numbers[usize::from(number)] += 1;
        if PLACED.contains(&number) {
            met.bits.meet(number, bit, name(number, bit));
        } else if bit > 0 {
            met.bits.meet(number, bit, None);
        }
    }

    /// Counts a call on which the programs differ.
    pub fn differ(&mut self, call: usize, shown: impl FnOnce() -> String) {
        self.met[call].differing += 1;
        if self.shown.len() < SHOWN {
            self.shown.push(shown());
        }
    }

    /// Gives both programs one input and compares the answer, and every lent cell with its guards.
    pub fn compare<F: Family>(&mut self, seed: u64, index: u64) {
        let call = index as usize % F::CALLS.len();
        let (input, before) = F::input(call, &mut Random::new(seed, F::NAME, index));
        let (mut proved, mut paper) = (before.clone(), before.clone());
        let answer = F::proved(&input, &mut proved);
        let due = F::paper(&input, &mut paper);
        self.meet(call, due, |number, bit| F::field(&input, &before, number, bit));
        let kept = answer == 0 || proved == before;
        if answer == due && proved == paper && kept {
            return;
        }
        self.differ(call, || {
            let name = F::CALLS[call].name;
            let (answer, due) = (told(answer), told(due));
            format!(
                "{} {name}, seed {seed}, input {index}: {input:?}\n  lent   {before:?}\n  \
                 proved {answer} {proved:?}\n  due    {due} {paper:?}",
                F::NAME,
            )
        });
    }

    /// Prints the first inputs that differ, and a line for each call, whose checks are counted. Answers all calls' line.
    pub fn report(&self, name: &str, calls: &[Call], floor: Floor, tally: &mut Tally) -> Row {
        self.shown.iter().take(SHOWN).for_each(|shown| println!("{shown}"));
        let mut all = Row::default();
        for (call, met) in calls.iter().zip(&self.met) {
            let row = met.row(call);
            super::table::print_row(name, call.name, &row, &met.shown(call));
            judge(&format!("{name} {}", call.name), call, met, floor, tally);
            all = super::table::sum(&all, &row);
        }
        all
    }
}

/// A call's checks: no input differs, every number that it can give is met often enough, and no other is met. No field is
/// refused that can't be, and in a run of many inputs each that can be.
fn judge(name: &str, call: &Call, met: &Met, floor: Floor, tally: &mut Tally) {
    tally.check(met.differing == 0, format_args!("{name}: {} inputs differ", met.differing));
    let (given, others): (Vec<_>, Vec<_>) = met.numbers.iter().enumerate().partition(|(number, _)| call.gives(*number));
    for (number, count) in given {
        tally.check(*count >= floor.times, format_args!("{name}: {number} met {count} times, {} due", floor.times));
    }
    let others: u64 = others.iter().map(|(_, count)| *count).sum();
    tally.check(others == 0, format_args!("{name}: {others} times a number that it can't give"));
    let others = met.bits.others(call.places);
    tally.check(others.is_empty(), format_args!("{name}: refused at {others:?}, which can't be"));
    let missing = met.bits.missing(call.places);
    tally.check(missing.is_empty() || !floor.fields, format_args!("{name}: never refused at {missing:?}"));
}
