//! Tide telegrams whose bytes are spelled from the tables of 000, and refusals whose order is easily mistaken.

mod telegrams;
mod wrapped;

use super::ais::with_bytes;
use super::at;
use crate::family::tide::Calls;
use crate::family::{Paper, Proved};
use crate::harness::Tally;
use bellnewt::tide::Tide;
use telegrams::{fields, longest, observed_with, sizes_and_codes, telegrams, Telegram};
use telegrams::{FORECAST, OBSERVED, OBSERVED_ROW};

pub fn run(tally: &mut Tally) {
    cases::<Proved>("proved", tally);
    cases::<Paper>("paper", tally);
    wrapped::run(tally);
}

fn cases<C: Calls>(who: &str, tally: &mut Tally) {
    telegrams().iter().for_each(|telegram| good::<C>(who, telegram, tally));
    for (case, message, due) in sizes_and_codes().into_iter().chain(fields()) {
        judged::<C>(&format!("{who}: {case}"), &message, due, tally);
    }
    rooms::<C>(who, tally);
    not_written::<C>(who, tally);
    corrections::<C>(who, tally);
}

/// A good telegram, read and written back byte for byte, and its heights. What is past an answer stays.
fn good<C: Calls>(who: &str, telegram: &Telegram, tally: &mut Tally) {
    let Telegram { case, message, row, heights, .. } = telegram;
    let (mut count, mut numbers, mut found) = (99, 99, vec![7; row.len() + 1]);
    let code = C::read(message, &mut count, &mut numbers, &mut found);
    let due = [&row[..], &[7]].concat();
    tally.same(&format!("{who}: {case} read"), (code, count, numbers, found), (0, 1, row.len(), due));

    let mut buf = vec![7; message.len() + 1];
    let code = C::write(&mut buf, 1, row);
    tally.same(&format!("{who}: {case} written"), (code, buf), (0, [&message[..], &[7]].concat()));

    let (mut found, mut count) = (vec![7; heights.len() + 1], 99);
    let code = C::heights(message, &mut found, &mut count);
    let due = [&heights[..], &[7]].concat();
    tally.same(&format!("{who}: {case}, its heights"), (code, found, count), (0, due, heights.len()));
}

/// What reading, heights and a correction of no field answer. A refusal leaves what is lent.
fn judged<C: Calls>(case: &str, message: &[u8], due: u32, tally: &mut Tally) {
    let (mut count, mut numbers, mut row) = (99, 99, [7; Tide::ROW]);
    let code = C::read(message, &mut count, &mut numbers, &mut row);
    let kept = (count, numbers, row) == (99, 99, [7; Tide::ROW]);
    tally.same(&format!("{case}, read"), (code, kept), (due, due != 0));

    let (mut heights, mut count) = ([7; Tide::HEIGHTS], 99);
    let code = C::heights(message, &mut heights, &mut count);
    let kept = (heights, count) == ([7; Tide::HEIGHTS], 99);
    tally.same(&format!("{case}, its heights"), (code, kept), (due, due != 0));

    let mut found = message.to_vec();
    let code = C::correct(&mut found, 0, 0);
    let due = if due == 0 { 10 } else { due };
    tally.same(&format!("{case}, corrected"), (code, &found[..]), (due, message));
}

/// Rows that are one too short.
fn rooms<C: Calls>(who: &str, tally: &mut Tally) {
    let (mut count, mut numbers, mut row) = (99, 99, [7; 6]);
    let code = C::read(&OBSERVED, &mut count, &mut numbers, &mut row);
    tally.same(&format!("{who}: a row too short"), (code, count, numbers, row), (6, 99, 99, [7; 6]));
    let (mut heights, mut count) = ([7; 1], 99);
    let code = C::heights(&FORECAST, &mut heights, &mut count);
    tally.same(&format!("{who}: a row of heights too short"), (code, heights, count), (6, [7; 1], 99));
}

/// Records that are refused, with room for 9 bytes.
fn not_written<C: Calls>(who: &str, tally: &mut Tally) {
    let row_with = |at: usize, number: u32| {
        let mut row = OBSERVED_ROW;
        row[at] = number;
        row.to_vec()
    };
    let crowded = [&[0, 1, 0, 52], &OBSERVED_ROW[4..].repeat(52)[..]].concat();
    for (case, count, row, due) in [
        ("no records", 0, OBSERVED_ROW.to_vec(), at(4, 12)),
        ("512 records", 512, OBSERVED_ROW.repeat(512), at(4, 12)),
        ("511 records", 511, OBSERVED_ROW.repeat(511), 1),
        ("position type 2", 1, row_with(0, 2), at(4, 21)),
        ("a port too wide", 1, row_with(1, 64), at(4, 22)),
        ("a forecast mark too wide", 1, row_with(2, 2), at(4, 28)),
        ("no entries", 1, row_with(3, 0), at(4, 29)),
        ("512 entries", 1, [&[0, 1, 0, 512], &OBSERVED_ROW[4..].repeat(512)[..]].concat(), at(4, 29)),
        ("511 entries", 1, [&[0, 1, 0, 511], &OBSERVED_ROW[4..].repeat(511)[..]].concat(), 1),
        ("no time", 1, row_with(4, 0), at(4, 39)),
        ("a time too wide", 1, row_with(4, 1 << 21 | OBSERVED_ROW[4]), at(4, 38)),
        ("a sign too wide", 1, row_with(5, 2), at(4, 59)),
        ("a value too wide", 1, row_with(6, 1_024), at(4, 60)),
        ("minus nothing", 1, [&OBSERVED_ROW[..5], &[0, 0]].concat(), at(4, 60)),
        ("213 bytes", 1, crowded, 1),
        ("a value that is missing", 1, OBSERVED_ROW[..6].to_vec(), 6),
        ("a time that is missing", 1, OBSERVED_ROW[..4].to_vec(), 6),
        ("a count that is missing", 1, OBSERVED_ROW[..3].to_vec(), 6),
        ("a whole row that is missing", 1, Vec::new(), 6),
        ("a second record that is missing", 2, OBSERVED_ROW.to_vec(), 6),
        ("a bad port before what is missing", 1, vec![0, 64], at(4, 22)),
        ("room for two records", 2, OBSERVED_ROW.repeat(2), 6),
    ] {
        let mut buf = [7; 9];
        let code = C::write(&mut buf, count, &row);
        tally.same(&format!("{who}: {case}, written"), (code, buf), (due, [7; 9]));
    }
    let mut buf = [7; 9];
    let code = C::write(&mut buf, 1, &[&OBSERVED_ROW[..], &[u32::MAX]].concat());
    tally.same(&format!("{who}: an entry that is not asked for, written"), (code, buf), (0, OBSERVED));
}

/// A correction: the field's number, its new value, and what is answered, with the bytes that are others then.
type Corrected = (usize, u64, u32, &'static [(usize, u8)]);

const OBSERVED_CORRECTIONS: [Corrected; 19] = [
    (0, 0xE4, 10, &[]),
    (1, 1, 10, &[]),
    (2, 0, 10, &[]),
    (3, 1, 10, &[]),
    (4, 0, 10, &[]),
    (5, 63, 0, &[(2, 0x0B), (3, 0xF0)]),
    (5, 64, at(4, 22), &[]),
    (6, 1, 0, &[(3, 0x18)]),
    (6, 2, at(4, 28), &[]),
    (7, 1, 10, &[]),
    (8, 1_116_160, 0, &[(4, 0x06), (5, 0x21), (6, 0x00), (7, 0x14)]),
    (8, 0, at(4, 39), &[]),
    (8, 1 << 21 | 579_998, at(4, 38), &[]),
    (9, 0, 0, &[(7, 0xC4)]),
    (9, 2, at(4, 59), &[]),
    (10, 0, 0, &[(7, 0xD0), (8, 0x00)]),
    (10, 1_024, at(4, 60), &[]),
    (11, 0, 10, &[]),
    (usize::MAX, 0, 10, &[]),
];

const FORECAST_CORRECTIONS: [Corrected; 9] = [
    (4, 1, 10, &[]),
    (5, 90 << 13, 0, &[(2, 0x0D), (3, 0x68), (4, 0x00), (5, 0x07)]),
    (5, 91 << 13, at(4, 23), &[]),
    (6, 181 << 13, at(4, 44), &[]),
    (7, 0, 0, &[(8, 0x80)]),
    (8, 2, 10, &[]),
    (10, 1, 0, &[(12, 0x85)]),
    (11, 0, at(4, 97), &[]),
    (15, 0, 10, &[]),
];

fn corrections<C: Calls>(who: &str, tally: &mut Tally) {
    let mut correct = |message: &[u8], (field, value, due, others): Corrected| {
        let mut found = message.to_vec();
        let code = C::correct(&mut found, field, value);
        let case = format!("{who}: field {field} of {} bytes corrected to {value}", message.len());
        tally.same(&case, (code, found), (due, with_bytes(message, others)));
    };
    OBSERVED_CORRECTIONS.into_iter().for_each(|corrected| correct(&OBSERVED, corrected));
    FORECAST_CORRECTIONS.into_iter().for_each(|corrected| correct(&FORECAST, corrected));
    // A sign over the value 0; the last value of the longest; a telegram's own refusal before 10.
    correct(&observed_with(&[(7, 0xD0), (8, 0x00)]), (9, 0, at(4, 60), &[]));
    correct(&longest(), (158, 0, 0, &[(208, 0x80), (209, 0x00)]));
    correct(&longest(), (159, 0, 10, &[]));
    correct(&observed_with(&[(8, 0xE1)]), (11, 0, at(5, 70), &[]));
}
