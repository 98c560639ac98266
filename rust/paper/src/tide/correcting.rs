//! A number of a tide telegram that is corrected.

use super::opening::Opening;
use super::{entry, judge, openings};
use crate::notice::area::Part::{Latitude, Longitude};
use crate::{bits, narrow};
use record::Refusal;

/// The number that a correction names the row's first entry by. Below it are the codes, and how many records there are.
const FIRST_ENTRY: usize = 4;

/// A number that can be corrected. Position types and counts decide the layout, so that they are not.
enum Number {
    Port,
    Latitude,
    Longitude,
    Forecast,
    /// The time, the sign or the value of the entry that starts at a bit.
    Part {
        entry: usize,
        part: usize,
    },
}

/// Corrects an entry of the row.
pub fn correct(message: &mut [u8], field: usize, value: u64) -> Result<(), Refusal> {
    let found = judge(message)?;
    let place = field.checked_sub(FIRST_ENTRY).ok_or(Refusal::FIELD)?;
    let (at, number) = locate(message, found.records, place).ok_or(Refusal::FIELD)?;
    let width = number.width();
    let value = narrow(value, width, at as u32)?;
    number.judge(message, at as u32, value as u32)?;
    bits::put(message, at, width, value);
    Ok(())
}

/// The number at a place in the row of a good telegram, and the bit that it starts at; none if it can't be corrected.
fn locate(message: &[u8], records: u16, mut place: usize) -> Option<(usize, Number)> {
    for opening in openings(message, records) {
        let numbers = opening.numbers();
        if place < numbers {
            return within(&opening, place);
        }
        place -= numbers;
    }
    None
}

/// The number at a place in the row of a record.
fn within(opening: &Opening, place: usize) -> Option<(usize, Number)> {
    if let Some(place) = place.checked_sub(opening.lead()) {
        let entry = opening.entries_at() + entry::BITS * (place / entry::NUMBERS);
        let part = place % entry::NUMBERS;
        return Some((entry + entry::BEFORE[part], Number::Part { entry, part }));
    }
    let (before, number) = match (opening.is_point, place) {
        (false, 1) => (1, Number::Port),
        (false, 2) => (7, Number::Forecast),
        (true, 1) => (1, Number::Latitude),
        (true, 2) => (22, Number::Longitude),
        (true, 3) => (44, Number::Forecast),
        _ => return None,
    };
    Some((opening.start + before, number))
}

impl Number {
    fn width(&self) -> u32 {
        match self {
            Number::Port => 6,
            Number::Latitude => Latitude.width(),
            Number::Longitude => Longitude.width(),
            Number::Forecast => 1,
            Number::Part { part, .. } => entry::WIDTHS[*part],
        }
    }

    /// Judges the changed record. Whatever of an entry is changed, all of it is judged: a sign may not fit its value.
    fn judge(&self, message: &[u8], at: u32, value: u32) -> Result<(), Refusal> {
        match *self {
            Number::Port | Number::Forecast => Ok(()),
            Number::Latitude => Latitude.judge(value, at),
            Number::Longitude => Longitude.judge(value, at),
            Number::Part { entry, part } => {
                let mut numbers = entry::numbers(bits::get(message, entry, entry::BITS as u32));
                numbers[part] = value;
                let is_good = entry::spelled(&numbers).is_some_and(entry::good);
                is_good.then_some(()).ok_or_else(|| entry::fault_of(&numbers, entry as u32))
            }
        }
    }
}
