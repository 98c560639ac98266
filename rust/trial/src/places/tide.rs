//! The fields of a tide telegram, by their names.

use super::walk::{Numbers, Part, Walk, LATITUDE, LONGITUDE};
use crate::harness::Fields::Named;
use crate::harness::Places;

const COUNT_AT: u32 = 12;
const HEAD_BITS: u32 = 21;
const TIME: [Part; 5] = [(1, "next year"), (4, "month"), (5, "day"), (5, "hour"), (6, "minute")];

const JUDGED: &[&str] = &["records", "entries"];
const JUDGED_PARTS: &[&str] = &["degrees N", "minutes N", "hundredths N", "degrees E", "minutes E", "hundredths E"];
const JUDGED_ENTRY: &[&str] = &["month", "day", "hour", "minute", "value"];
const CUT: &[&str] = &["position", "port", "south", "west", "forecast", "entries", "next year", "sign", "left over"];
/// What every number that fits is good for, so that only one that is too wide is refused.
const WIDE: &[&str] = &["port", "south", "west", "forecast", "next year", "sign"];

pub const READ: Places = &[
    (1, Named(CUT)),
    (1, Named(JUDGED_PARTS)),
    (1, Named(JUDGED_ENTRY)),
    (4, Named(JUDGED)),
    (4, Named(JUDGED_PARTS)),
    (4, Named(JUDGED_ENTRY)),
    (5, Named(&["fill"])),
];
pub const WRITE: Places = &[READ[3], READ[4], READ[5], (4, Named(WIDE)), (4, Named(&["position"]))];
pub const CORRECT: Places = &[READ[0], READ[1], READ[2], READ[3], READ[4], READ[5], READ[6], (4, Named(WIDE))];

/// The field that starts at a bit of a telegram of so many records. The fill behind them is told by its number.
pub fn field(number: u8, bit: u32, records: u32, numbers: Numbers) -> &'static str {
    if number == 5 {
        return "fill";
    }
    if bit == COUNT_AT {
        return "records";
    }
    let mut walk = Walk::new(numbers, HEAD_BITS, bit);
    for _ in 0..records {
        if walk.is_past() {
            break;
        }
        record(&mut walk);
    }
    let is_behind = number == 1 && bit == walk.at.next_multiple_of(8);
    walk.found.unwrap_or(if is_behind { "left over" } else { "no field" })
}

fn record(walk: &mut Walk) {
    if walk.next(1, "position") == 1 {
        walk.parts(&LATITUDE);
        walk.parts(&LONGITUDE);
    } else {
        walk.next(6, "port");
    }
    walk.next(1, "forecast");
    for _ in 0..walk.next(9, "entries") {
        if walk.is_past() {
            break;
        }
        walk.parts(&TIME);
        walk.next(1, "sign");
        walk.next(10, "value");
    }
}
