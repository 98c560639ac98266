//! Corrects when a notice ends, as pier staff do in the form.
//!
//!     cargo run --offline --example correct_expiry MONTH DAY HOUR MINUTE
//!
//! A time that is none is refused, and the notice stays as it was. Try month 13.

use bellnewt::notice::{self, Expiry, Field, Head, Notice};
use bellnewt::packet::ENGLISH;
use std::env;
use std::error::Error;

fn main() -> Result<(), Box<dyn Error>> {
    let numbers = env::args().skip(1).map(|word| word.parse()).collect::<Result<Vec<u8>, _>>()?;
    let (month, day, hour, minute) = match numbers[..] {
        [month, day, hour, minute] => (month, day, hour, minute),
        _ => (9, 1, 12, 0),
    };
    let expiry = Expiry { next_year: false, month, day, hour, minute };

    let mut bytes = typed()?;
    println!("before: {bytes:02X?}");
    match notice::correct(&mut bytes, ENGLISH, Field::Expiry, expiry.number().into()) {
        Ok(()) => println!("corrected to {expiry:?}"),
        Err(refusal) => println!("refused: {refusal}"),
    }
    println!("after:  {bytes:02X?}");
    Ok(())
}

/// A notice as it was typed: a text, and no known end.
fn typed() -> Result<Vec<u8>, Box<dyn Error>> {
    let head = Head { source: 11, station: 2, serial: 123, year: 24, kind: 4, subtype: 11, expiry: 0 };
    let notice = Notice { head, areas: vec![], text: b"KEEP CLEAR".to_vec() };
    let mut bytes = vec![0; notice.bytes()];
    notice::write(&mut bytes, ENGLISH, &notice)?;
    Ok(bytes)
}
