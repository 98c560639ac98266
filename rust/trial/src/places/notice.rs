//! The fields of a notice, by their names.

use super::walk::{Numbers, Walk, LATITUDE, LONGITUDE};
use crate::harness::Fields::Named;
use crate::harness::Places;

/// The fields and parts before the areas, with the bits that they start at.
const HEAD: [(u32, &str); 12] = [
    (0, "source"),
    (5, "station"),
    (9, "serial"),
    (23, "year"),
    (30, "type"),
    (34, "subtype"),
    (38, "next year"),
    (39, "month"),
    (43, "day"),
    (48, "hour"),
    (53, "minute"),
    (59, "areas"),
];
const HEAD_BITS: u32 = 63;

const JUDGED: &[&str] = &["source", "station", "serial", "year", "type", "subtype", "month", "day", "hour", "minute"];
const JUDGED_AREAS: &[&str] = &["kind", "count", "text"];
const JUDGED_PARTS: &[&str] = &["degrees N", "minutes N", "hundredths N", "degrees E", "minutes E", "hundredths E"];
const CUT: &[&str] = &["kind", "code", "count", "south", "west", "radius", "unit"];
/// What every number that fits is good for, so that only one that is too wide is refused.
const WIDE: &[&str] = &["next year", "code", "south", "west", "radius", "unit"];

pub const READ: Places = &[
    (1, Named(CUT)),
    (1, Named(JUDGED_PARTS)),
    (4, Named(JUDGED)),
    (4, Named(JUDGED_AREAS)),
    (4, Named(JUDGED_PARTS)),
    (5, Named(&["fill"])),
];
pub const WRITE: Places = &[READ[2], READ[3], READ[4], (4, Named(WIDE)), (4, Named(&["areas"]))];
pub const CORRECT: Places = &[READ[0], READ[1], READ[2], READ[3], READ[4], READ[5], (4, Named(WIDE))];

/// The field that starts at a bit of a notice of so many areas. The fill behind the text is told by its number.
pub fn field(number: u8, bit: u32, areas: u32, numbers: Numbers) -> &'static str {
    if number == 5 {
        return "fill";
    }
    if let Some((_, name)) = HEAD.iter().find(|(start, _)| *start == bit) {
        return name;
    }
    let mut walk = Walk::new(numbers, HEAD_BITS, bit);
    for _ in 0..areas {
        let kind = walk.next(3, "kind");
        match kind {
            0 => {
                walk.next(8, "code");
            }
            3 => {
                points(&mut walk, 1);
                walk.next(10, "radius");
                walk.next(2, "unit");
            }
            _ => {
                let count = walk.next(4, "count");
                points(&mut walk, count);
            }
        }
    }
    walk.found.unwrap_or(if walk.at == bit { "text" } else { "no field" })
}

fn points(walk: &mut Walk, count: u32) {
    for _ in 0..count {
        if walk.is_past() {
            break;
        }
        walk.parts(&LATITUDE);
        walk.parts(&LONGITUDE);
    }
}
