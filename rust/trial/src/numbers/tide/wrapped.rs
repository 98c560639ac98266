//! The wrapper's calls over tide telegrams as records.

use super::telegrams::{
    point, telegrams, Telegram, FORECAST, FORECAST_ENTRIES, OBSERVED, OBSERVED_ENTRY, OBSERVED_ROW,
};
use crate::harness::Tally;
use bellnewt::tide::{correct, heights, read, write};
use bellnewt::tide::{Entry, Field, Point, Position, Records, Tide, Time};
use record::Refusal;

pub fn run(tally: &mut Tally) {
    calls(tally);
    records(tally);
    corrections(tally);
}

/// The wrapper's calls.
fn calls(tally: &mut Tally) {
    for Telegram { case, message, row, heights: levels, tide } in telegrams() {
        tally.same(&format!("wrapper: {case}, its row"), (tide.count(), tide.row()), (1, &row[..]));
        tally.same(&format!("wrapper: {case}"), read(&message), Ok(tide.clone()));
        tally.same(&format!("wrapper: {case}, its size"), tide.bytes(), message.len());
        tally.same(&format!("wrapper: {case}, its heights"), heights(&message), Ok(levels));
        let mut bytes = vec![0; message.len()];
        let answer = write(&mut bytes, &tide);
        tally.same(&format!("wrapper: {case} written"), (answer, bytes), (Ok(()), message));
    }
    tally.same("wrapper: no telegram", read(&[]), Err(Refusal::SIZE));
    tally.same("wrapper: no records", write(&mut [0; 9], &Tide::new()), Err(Refusal::RANGE.at(12)));
    let crowded = Tide::new().with(Position::Port(1), false, &[OBSERVED_ENTRY; 512]);
    tally.same("wrapper: 512 entries", write(&mut [0; 9], &crowded), Err(Refusal::RANGE.at(29)));
    let high = Entry { height: -1_024, ..OBSERVED_ENTRY };
    let high = Tide::new().with(Position::Port(1), false, &[high]);
    tally.same("wrapper: a height too wide", write(&mut [0; 9], &high), Err(Refusal::RANGE.at(60)));
    let time = Time { month: 16, ..OBSERVED_ENTRY.time };
    let late = Tide::new().with(Position::Port(1), false, &[Entry { time, height: 0 }]);
    tally.same("wrapper: a month too wide", write(&mut [0; 9], &late), Err(Refusal::RANGE.at(38)));
}

/// The records of a row.
fn records(tally: &mut Tally) {
    let two = Tide::new().with(Position::Port(1), false, &[OBSERVED_ENTRY]).with(point(), true, &FORECAST_ENTRIES);
    let found: Vec<_> = two.records().map(|record| (record.position, record.forecast)).collect();
    tally.same("wrapper: two records", found, vec![(Position::Port(1), false), (point(), true)]);
    let found: Vec<Entry> = two.records().flat_map(|record| record.entries()).collect();
    tally.same("wrapper: their entries", found, [&[OBSERVED_ENTRY], &FORECAST_ENTRIES[..]].concat());
    let mut bytes = vec![0; two.bytes()];
    tally.same("wrapper: two records written", write(&mut bytes, &two), Ok(()));
    tally.same("wrapper: two records read", read(&bytes), Ok(two));
    tally.same("wrapper: a record that is cut", Records::of_row(&OBSERVED_ROW[..6]).count(), 0);
    tally.same("wrapper: no position type", Records::of_row(&[2, 1, 0, 0]).count(), 0);
}

/// Fields corrected by their names.
fn corrections(tally: &mut Tally) {
    let (mut port, mut point) = (OBSERVED, FORECAST);
    for (field, value, due) in [
        (Field::Port { record: 0 }, 63, Ok(())),
        (Field::Port { record: 1 }, 63, Err(Refusal::FIELD)),
        (Field::Latitude { record: 0 }, 0, Err(Refusal::FIELD)),
        (Field::Forecast { record: 0 }, 1, Ok(())),
        (Field::Sign { record: 0, entry: 0 }, 0, Ok(())),
        (Field::Sign { record: 0, entry: 1 }, 0, Err(Refusal::FIELD)),
        (Field::Value { record: 0, entry: 0 }, 0, Err(Refusal::RANGE.at(60))),
    ] {
        tally.same(&format!("wrapper: {field:?} of a port"), correct(&mut port, field, value), due);
    }
    let entry = Entry { height: -312, ..OBSERVED_ENTRY };
    let due = Tide::new().with(Position::Port(63), true, &[entry]);
    tally.same("wrapper: all that was corrected of a port", read(&port), Ok(due));

    let time = Time { next_year: true, month: 2, day: 31, hour: 0, minute: 0 };
    for (field, value, due) in [
        (Field::Port { record: 0 }, 1, Err(Refusal::FIELD)),
        (Field::Latitude { record: 0 }, 91 << 13, Err(Refusal::RANGE.at(23))),
        (Field::Latitude { record: 0 }, 90 << 13, Ok(())),
        (Field::Longitude { record: 0 }, 1 << 21, Ok(())),
        (Field::Forecast { record: 0 }, 0, Ok(())),
        (Field::Time { record: 0, entry: 1 }, time.number().into(), Ok(())),
        (Field::Value { record: 0, entry: 1 }, 0, Ok(())),
        (Field::Value { record: 0, entry: 2 }, 0, Err(Refusal::FIELD)),
    ] {
        tally.same(&format!("wrapper: {field:?} of a point"), correct(&mut point, field, value), due);
    }
    let moved = Position::Point(Point { latitude: 90 << 13, longitude: 1 << 21 });
    let due = Tide::new().with(moved, false, &[FORECAST_ENTRIES[0], Entry { time, height: 0 }]);
    tally.same("wrapper: all that was corrected of a point", read(&point), Ok(due));
}
