//! An entry of a tide record, as the 32 bits that it has: time 21, sign 1, centimetres 10 (000, 5.4.2.3 and table 6).

use crate::bits::{self, Part};
use record::Refusal;

/// How many bits an entry has, and how many numbers it takes in a row.
pub const BITS: usize = 32;
pub const NUMBERS: usize = 3;

/// The widths of its numbers: the time, the sign and the value.
pub const WIDTHS: [u32; NUMBERS] = [21, 1, 10];
/// How many bits of the entry stand before each of them.
pub const BEFORE: [usize; NUMBERS] = [0, 21, 22];

/// The bits of the sign and the value together.
const LEVEL: u32 = 0x7FF;

/// The parts of the time and the sign. The calendar is not asked.
const PARTS: [Part; 6] = [(1, 0, 1), (4, 1, 12), (5, 1, 31), (5, 0, 23), (6, 0, 59), (1, 0, 1)];
/// The value, under sign 0 and under sign 1.
const VALUE: [Part; 2] = [(10, 1, 1_023), (10, 0, 1_023)];

/// The parts of the time are in their ranges, so that all zeros are no time; and sign 0 with value 0 is no level.
#[inline]
pub fn good(entry: u32) -> bool {
    let (month, day) = (entry >> 27 & 15, entry >> 22 & 31);
    let (hour, minute) = (entry >> 17 & 31, entry >> 11 & 63);
    (1..=12).contains(&month) & (day > 0) & (hour <= 23) & (minute <= 59) & (entry & LEVEL > 0)
}

/// What refuses the entry that starts at a bit: its first part that is bad, or that the message is too short for; none if
/// it is good.
pub fn fault(message: &[u8], at: usize) -> Option<Refusal> {
    let value_at = at + BEFORE[2];
    bits::fault(message, at, &PARTS).or_else(|| {
        let sign = bits::get(message, value_at - 1, 1);
        bits::fault(message, value_at, &[VALUE[sign as usize]])
    })
}

/// What refuses three numbers that are no good entry, to stand from a bit on. One that is too wide is refused at its first
/// bit.
#[cold]
pub fn fault_of(&[time, sign, _]: &[u32; NUMBERS], at: u32) -> Refusal {
    let before = if time >> WIDTHS[0] > 0 {
        0
    } else if let Some(refusal) = fault(&(time << 11 | LEVEL).to_be_bytes(), 0) {
        refusal.bit()
    } else {
        BEFORE[if sign > 1 { 1 } else { 2 }] as u32
    };
    Refusal::RANGE.at(at + before)
}

/// So many entries from a bit past the first byte on, all of which are there.
///
/// Entries have four bytes each, so that all of them start at one bit of their bytes. They are counted from the byte
/// before that bit, so that each is in five bytes, whichever bit it is: the first four shifted, and the last four.
#[inline]
pub fn list(message: &[u8], at: usize, count: usize) -> impl Iterator<Item = u32> + '_ {
    let before = (at - 1) / 8;
    let shift = at - 8 * before;
    let bytes = &message[before..=before + 4 * count];
    let (firsts, _) = bytes.as_chunks();
    let (lasts, _) = bytes[1..].as_chunks();
    let pairs = firsts.iter().zip(lasts);
    pairs.map(move |(first, last)| u32::from_be_bytes(*first) << shift | u32::from_be_bytes(*last) >> (8 - shift))
}

/// The numbers of an entry: time, sign, value.
#[inline]
pub fn numbers(entry: u32) -> [u32; NUMBERS] {
    [entry >> 11, entry >> 10 & 1, entry & 1_023]
}

/// The entry of three numbers, if its bits can spell them.
#[inline]
pub fn spelled(numbers: &[u32; NUMBERS]) -> Option<u32> {
    let [time, sign, value] = *numbers;
    (time >> 21 | sign >> 1 | value >> 10 == 0).then_some(time << 11 | sign << 10 | value)
}

/// The height in centimetres, negative where the sign is 0.
#[inline]
pub fn height(entry: u32) -> i32 {
    let [_, sign, value] = numbers(entry).map(|number| number as i32);
    if sign == 0 {
        -value
    } else {
        value
    }
}
