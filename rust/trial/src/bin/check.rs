//! Holds the proved code to the independent program: `check [--seed N] [--inputs N]`.

use std::process::ExitCode;
use trial::harness::{Options, Tally};
use trial::{family, gpsd, listing, numbers};

/// The options of the command line, or what is wrong with it.
fn options() -> Result<Options, String> {
    let mut options = Options::DEFAULT;
    let mut words = std::env::args().skip(1);
    while let Some(word) = words.next() {
        let number = words.next().and_then(|number| number.parse().ok());
        match (word.as_str(), number) {
            ("--seed", Some(number)) => options.seed = number,
            ("--inputs", Some(number)) => options.inputs = number,
            _ => return Err(format!("{word}: want --seed N or --inputs N")),
        }
    }
    Ok(options)
}

fn main() -> ExitCode {
    let options = match options() {
        Ok(options) => options,
        Err(fault) => {
            eprintln!("{fault}");
            return ExitCode::from(2);
        }
    };
    let mut tally = Tally::default();
    println!("seed {}, {} inputs a family", options.seed, options.inputs);
    numbers::run(&mut tally);
    gpsd::run(&mut tally);
    family::run(&options, &mut tally);
    listing::run(&options, &mut tally);
    tally.print_families();
    println!("rust: {} passed, {} failed", tally.passed, tally.failed);
    ExitCode::from(u8::from(tally.failed > 0))
}
