//! The fields of a tide telegram that can be corrected.

use super::{Entry, Position, Record, Tide};

/// A field of a tide telegram that can be corrected.
///
/// Records, and the entries of a record, are counted from 0.
#[derive(Clone, Copy, PartialEq, Eq, Debug)]
pub enum Field {
    /// A port's code, 0 to 63.
    Port {
        /// Which record.
        record: usize,
    },
    /// A point's latitude. The value is that of [`Point::latitude`](super::Point::latitude).
    Latitude {
        /// Which record.
        record: usize,
    },
    /// A point's longitude. The value is that of [`Point::longitude`](super::Point::longitude).
    Longitude {
        /// Which record.
        record: usize,
    },
    /// Whether a record's levels are forecast: 1, or 0 where they were observed.
    Forecast {
        /// Which record.
        record: usize,
    },
    /// An entry's time. The value is [`Time::number`](super::Time::number).
    Time {
        /// Which record.
        record: usize,
        /// Which of its entries.
        entry: usize,
    },
    /// An entry's sign: 0 for a negative level, else 1.
    Sign {
        /// Which record.
        record: usize,
        /// Which of its entries.
        entry: usize,
    },
    /// An entry's centimetres without their sign, 0 to 1,023. 0 needs the sign 1.
    Value {
        /// Which record.
        record: usize,
        /// Which of its entries.
        entry: usize,
    },
}

impl Field {
    /// The field's number in a telegram; none if it does not have the field.
    pub fn number(&self, tide: &Tide) -> Option<usize> {
        match *self {
            Field::Port { record } => of_record(tide, record, |record| of_position(record, false, 1)),
            Field::Latitude { record } => of_record(tide, record, |record| of_position(record, true, 1)),
            Field::Longitude { record } => of_record(tide, record, |record| of_position(record, true, 2)),
            Field::Forecast { record } => of_record(tide, record, |record| Some(record.lead() - 2)),
            Field::Time { record, entry } => of_record(tide, record, |record| of_entry(record, entry, 0)),
            Field::Sign { record, entry } => of_record(tide, record, |record| of_entry(record, entry, 1)),
            Field::Value { record, entry } => of_record(tide, record, |record| of_entry(record, entry, 2)),
        }
    }
}

/// The number of a record's entry in the row, if there is that record and it has the entry.
fn of_record(tide: &Tide, at: usize, entry: impl Fn(&Record) -> Option<usize>) -> Option<usize> {
    let record = tide.records().nth(at)?;
    let before: usize = tide.records().take(at).map(|record| record.numbers()).sum();
    Some(Tide::FIRST_ENTRY + before + entry(&record)?)
}

/// Where a number of the position stands among its record's entries, if it is a point or a port as is asked.
fn of_position(record: &Record, is_point: bool, place: usize) -> Option<usize> {
    (matches!(record.position, Position::Point(_)) == is_point).then_some(place)
}

/// Where a part of an entry stands among its record's.
fn of_entry(record: &Record, at: usize, part: usize) -> Option<usize> {
    (at < record.entries().len()).then_some(record.lead() + Entry::NUMBERS * at + part)
}
