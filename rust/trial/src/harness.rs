//! What every comparison shares: a family's run over seeded inputs, guarded memory, and the count of checks.

mod counts;
mod guarded;
mod places;
mod table;
mod tally;

pub use counts::{told, Counts};
pub use guarded::{Cell, Guarded};
pub use places::{Fields, Places};
pub use table::print_head;
pub use tally::Tally;

use crate::inputs::Random;
use std::fmt::Debug;
use std::thread;

/// Options of a run: every input follows from the seed.
#[derive(Clone, Copy)]
pub struct Options {
    pub seed: u64,
    /// How many inputs each family is given.
    pub inputs: u64,
}

impl Options {
    pub const DEFAULT: Options = Options { seed: 1, inputs: 2_000_000 };

    /// What must be met: each number a thousand times, or in proportion in a run of less than a million inputs.
    pub fn floor(&self) -> Floor {
        Floor { times: (self.inputs / 1_000).min(1_000), fields: self.inputs >= 1_000_000 }
    }
}

/// What a run must meet.
#[derive(Clone, Copy)]
pub struct Floor {
    /// How often each number that a call can give.
    pub times: u64,
    /// Whether each field that a call can refuse.
    pub fields: bool,
}

/// A call's name, the numbers that it can give, and the fields that it can refuse.
pub struct Call {
    pub name: &'static str,
    pub numbers: &'static [u8],
    pub places: Places,
}

impl Call {
    fn gives(&self, number: usize) -> bool {
        self.numbers.iter().any(|given| usize::from(*given) == number)
    }
}

/// A family of messages: its calls, and the two programs that answer them.
pub trait Family {
    const NAME: &'static str;
    const CALLS: &'static [Call];
    /// A call's own numbers.
    type Input: Debug;
    /// All memory that a call is lent, guards included.
    type Lent: Clone + PartialEq + Debug;

    fn input(call: usize, random: &mut Random) -> (Self::Input, Self::Lent);
    /// Both answer as in C: a number, and 256 times the bit at fault.
    fn proved(input: &Self::Input, lent: &mut Self::Lent) -> u32;
    fn paper(input: &Self::Input, lent: &mut Self::Lent) -> u32;

    /// The name of the field that 1, 4 or 5 is given at, if it is one that moves.
    fn field(_input: &Self::Input, _before: &Self::Lent, _number: u8, _bit: u32) -> Option<&'static str> {
        None
    }
}

/// Two cores, shared with others.
const WORKERS: u64 = 2;
/// How many differing inputs are shown in full.
const SHOWN: usize = 3;

/// Runs a family's inputs, prints what was met, and counts its checks.
pub fn run<F: Family>(options: &Options, tally: &mut Tally) {
    let compare = |index: u64, counts: &mut Counts| counts.compare::<F>(options.seed, index);
    run_pieces(F::NAME, F::CALLS, options.inputs, compare, options.floor(), tally);
}

/// Runs so many pieces of a family's work, prints what was met, and counts its checks: among them that `floor` was met.
pub fn run_pieces(
    name: &'static str,
    calls: &[Call],
    pieces: u64,
    compare: impl Fn(u64, &mut Counts) + Sync,
    floor: Floor,
    tally: &mut Tally,
) {
    let work = |first: u64| {
        let mut counts = Counts::new(calls);
        (first..pieces).step_by(WORKERS as usize).for_each(|index| compare(index, &mut counts));
        counts
    };
    let mut counts = Counts::new(calls);
    thread::scope(|scope| {
        let work = &work;
        let workers: Vec<_> = (0..WORKERS).map(|first| scope.spawn(move || work(first))).collect();
        for worker in workers {
            counts.add(worker.join().expect("a worker ends"));
        }
    });
    let all = counts.report(name, calls, floor, tally);
    tally.add_family(name, all);
}
