//! Holds what the proved code reads from the benchmark's AIS messages to what gpsd's decoder says of them: message,
//! repeat, source, destination, sequence, resent, application and data. Where gpsdecode (Debian: gpsd-clients) is not
//! installed, it says so and ends well.

use std::io;
use std::process::ExitCode;
use trial::gpsd::{areas, decode, faults, sentences, warnings, Head, MISSING};

/// How many differing messages are shown.
const SHOWN: usize = 3;

fn main() -> ExitCode {
    match differing() {
        Ok(0) => ExitCode::SUCCESS,
        Ok(_) => ExitCode::FAILURE,
        Err(error) if error.kind() == io::ErrorKind::NotFound => {
            println!("{MISSING}");
            ExitCode::SUCCESS
        }
        Err(error) => {
            println!("{error}");
            ExitCode::FAILURE
        }
    }
}

fn differing() -> io::Result<usize> {
    let warnings = compare("warning", &warnings(), Head::of_warning)?;
    let areas = compare("area", &areas(), Head::of_area)?;
    Ok(warnings + areas)
}

/// Prints and answers how many messages differ.
fn compare(name: &str, messages: &[Vec<u8>], head: fn(&[u8]) -> Head) -> io::Result<usize> {
    let due: Vec<Head> = messages.iter().map(|message| head(message)).collect();
    let faults = faults(&decode(&sentences(messages))?, &due);
    println!("{name}: {} messages, {} differ from gpsd", messages.len(), faults.len());
    faults.iter().take(SHOWN).for_each(|fault| println!("  {fault}"));
    Ok(faults.len())
}
