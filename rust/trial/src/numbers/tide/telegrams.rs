//! Three telegrams, whose bytes are spelled by hand from the tables of 000, and telegrams that are good or refused, each
//! for one reason.

use crate::numbers::ais::with_bytes;
use crate::numbers::at;
use bellnewt::tide::{Angle, Entry, Point, Position, Tide, Time};

/// One port with one observed level: Tianjin, 312 cm on 27 August at 06:30.
pub const OBSERVED: [u8; 9] = [0xE4, 0x20, 0x08, 0x10, 0x05, 0x1B, 0x33, 0xD4, 0xE0];
pub const OBSERVED_ROW: [u32; 7] = [0, 1, 0, 1, 579_998, 1, 312];
pub const OBSERVED_ENTRY: Entry =
    Entry { time: Time { next_year: false, month: 8, day: 27, hour: 6, minute: 30 }, height: 312 };

/// A point with two forecast levels: N 38°45.25', E 118°30.75', -45 cm on 31 December at 23:59, and 1,023 cm on
/// 1 January of the next year at 06:15.
pub const FORECAST: [u8; 18] =
    [0xE4, 0x20, 0x0C, 0x9A, 0xD3, 0x27, 0x67, 0xA5, 0xC0, 0x4C, 0xFD, 0xFB, 0x05, 0xB1, 0x09, 0x8F, 0xFF, 0xE0];
pub const FORECAST_ROW: [u32; 11] = [1, 317_081, 970_571, 1, 2, 851_451, 0, 45, 1_116_559, 1, 1_023];
pub const FORECAST_ENTRIES: [Entry; 2] = [
    Entry { time: Time { next_year: false, month: 12, day: 31, hour: 23, minute: 59 }, height: -45 },
    Entry { time: Time { next_year: true, month: 1, day: 1, hour: 6, minute: 15 }, height: 1_023 },
];

/// Where they are.
pub fn point() -> Position {
    let north = Angle { negative: false, degrees: 38, minutes: 45, hundredths: 25 };
    let east = Angle { negative: false, degrees: 118, minutes: 30, hundredths: 75 };
    Position::Point(Point::new(north, east))
}

/// How many levels 210 bytes hold at a point.
const MOST: usize = 50;

/// The longest: the level of `OBSERVED` so many times, as a forecast at that point. Each starts at a byte's fourth bit.
pub fn longest() -> Vec<u8> {
    let opening = [0xE4, 0x20, 0x0C, 0x9A, 0xD3, 0x27, 0x67, 0xA5, 0xC6, 0x48];
    [&opening[..], &[0xD9, 0x9E, 0xA7, 0x08].repeat(MOST - 1), &[0xD9, 0x9E, 0xA7, 0x00]].concat()
}

/// A good telegram of one record.
pub struct Telegram {
    pub case: &'static str,
    pub message: Vec<u8>,
    pub row: Vec<u32>,
    pub heights: Vec<i32>,
    /// What it says.
    pub tide: Tide,
}

/// The three of them.
pub fn telegrams() -> [Telegram; 3] {
    [
        Telegram {
            case: "one port",
            message: OBSERVED.to_vec(),
            row: OBSERVED_ROW.to_vec(),
            heights: vec![312],
            tide: Tide::new().with(Position::Port(1), false, &[OBSERVED_ENTRY]),
        },
        Telegram {
            case: "one point",
            message: FORECAST.to_vec(),
            row: FORECAST_ROW.to_vec(),
            heights: vec![-45, 1_023],
            tide: Tide::new().with(point(), true, &FORECAST_ENTRIES),
        },
        Telegram {
            case: "the longest",
            message: longest(),
            row: [&FORECAST_ROW[..4], &[MOST as u32], &OBSERVED_ROW[4..].repeat(MOST)].concat(),
            heights: vec![312; MOST],
            tide: Tide::new().with(point(), true, &[OBSERVED_ENTRY; MOST]),
        },
    ]
}

/// `OBSERVED` with other bytes.
pub fn observed_with(others: &[(usize, u8)]) -> Vec<u8> {
    with_bytes(&OBSERVED, others)
}

/// Sizes, codes and what is left over: the case, and what reading it answers.
pub fn sizes_and_codes() -> Vec<(&'static str, Vec<u8>, u32)> {
    vec![
        ("no bytes", vec![], 1),
        ("8 bytes", OBSERVED[..8].to_vec(), 1),
        ("9 zeros", vec![0; 9], 2),
        ("211 zeros", vec![0; 211], 2),
        ("a notice's type", observed_with(&[(0, 0xE1)]), 2),
        ("version 2", observed_with(&[(1, 0x40)]), 2),
        ("class 1", observed_with(&[(1, 0x30)]), 2),
        ("211 bytes and no records", [vec![0xE4, 0x20], vec![0; 209]].concat(), 1),
        ("the first bit of fill", observed_with(&[(8, 0xE2)]), at(5, 70)),
        ("the last bit of fill", observed_with(&[(8, 0xE1)]), at(5, 70)),
        ("a byte left over", [&OBSERVED[..], &[0]].concat(), at(1, 72)),
        ("a fill and a byte left over", [&observed_with(&[(8, 0xE1)])[..], &[0]].concat(), at(5, 70)),
        ("a byte past the longest", [longest(), vec![0]].concat(), 1),
        ("a byte too few", longest()[..209].to_vec(), at(1, 1665)),
    ]
}

/// Fields that are good or refused.
pub fn fields() -> Vec<(&'static str, Vec<u8>, u32)> {
    vec![
        ("no records", observed_with(&[(2, 0x00)]), at(4, 12)),
        ("a second record that is missing", observed_with(&[(2, 0x10)]), at(1, 71)),
        ("no entries", observed_with(&[(4, 0x01)]), at(4, 29)),
        ("a second entry that is missing", observed_with(&[(4, 0x09)]), at(1, 71)),
        ("511 entries, the first with no month", observed_with(&[(3, 0x17), (4, 0xFC), (5, 0x1B)]), at(4, 39)),
        ("no time", observed_with(&[(4, 0x04), (5, 0), (6, 0), (7, 0x14)]), at(4, 39)),
        ("no month", observed_with(&[(4, 0x04)]), at(4, 39)),
        ("month 13", observed_with(&[(5, 0xBB)]), at(4, 39)),
        ("no day", observed_with(&[(5, 0x00)]), at(4, 43)),
        ("hour 24", observed_with(&[(6, 0xC3)]), at(4, 48)),
        ("minute 60", observed_with(&[(6, 0x37), (7, 0x94)]), at(4, 53)),
        ("minus nothing", observed_with(&[(7, 0xC0), (8, 0)]), at(4, 60)),
        ("nothing", observed_with(&[(7, 0xD0), (8, 0)]), 0),
        ("port 63", observed_with(&[(2, 0x0B), (3, 0xF0)]), 0),
        ("latitude 91", with_bytes(&FORECAST, &[(2, 0x0D), (3, 0x6E)]), at(4, 23)),
        ("latitude 90", with_bytes(&FORECAST, &[(2, 0x0D), (3, 0x6A)]), 0),
        ("a second entry cut behind a bad month", with_bytes(&FORECAST[..15], &[(13, 0xBD)]), at(4, 108)),
        ("a second entry cut behind a good month", FORECAST[..15].to_vec(), at(1, 117)),
    ]
}
