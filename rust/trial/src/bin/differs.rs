//! Where the library, or the listing program, differs from the independent program: `differs calls|listing SEED INPUTS`.
//! It makes the comparisons of `check` alone. tools/wrong runs it on wrong builds, tools/emulated on calls to be recorded.

use std::process::ExitCode;
use trial::harness::{Options, Tally};
use trial::{family, listing, numbers};

fn main() -> ExitCode {
    let words: Vec<String> = std::env::args().skip(1).collect();
    let [part, seed, inputs] = &words[..] else {
        eprintln!("differs calls|listing SEED INPUTS");
        return ExitCode::from(2);
    };
    let number = |word: &str| word.parse().expect("SEED and INPUTS are numbers");
    let options = Options { seed: number(seed), inputs: number(inputs) };
    let mut tally = Tally::default();
    match part.as_str() {
        "calls" => {
            family::run(&options, &mut tally);
            numbers::run(&mut tally);
        }
        _ => listing::run(&options, &mut tally),
    }
    ExitCode::from(u8::from(tally.failed > 0))
}
