//! The tide telegram and its heights (02, C-11; 000, 5.4).
//!
//! The record is how many tide records there are, and their numbers in a row, in bit order. A record is its opening,
//! which says where the tide is and how many entries follow, and its entries.

mod correcting;
mod entry;
mod opening;
mod writing;

pub use correcting::correct;
pub use writing::write;

use super::{field, need};
use opening::Opening;
use record::Refusal;
use std::mem;

/// The least and the most bytes of a telegram.
const LEAST: usize = 9;
const GREATEST: usize = 210;

/// Type 0xE4, version 1 and class 0 in 12 bits, then how many records there are.
const KIND: u64 = 0xE42;
const KIND_BITS: u32 = 12;
const COUNT_BITS: u32 = 9;
const HEAD_BITS: usize = (KIND_BITS + COUNT_BITS) as usize;

/// What reading finds out of a telegram.
struct Found {
    records: u16,
    /// How many numbers the records take in a row, and how many entries they have.
    numbers: usize,
    entries: usize,
}

/// The bits from a bit of a telegram on, at least 57 of them or all that there are, with zeros behind.
#[inline]
fn window(message: &[u8], at: usize) -> u64 {
    let start = (at / 8).min(message.len() - 8);
    let bytes = message[start..].first_chunk().expect("eight bytes are left");
    u64::from_be_bytes(*bytes).checked_shl((at - 8 * start) as u32).unwrap_or(0)
}

/// Judges a whole telegram.
fn judge(message: &[u8]) -> Result<Found, Refusal> {
    need(message.len() >= LEAST, Refusal::SIZE)?;
    let head = window(message, 0);
    need(head >> (u64::BITS - KIND_BITS) == KIND, Refusal::KIND)?;
    need(message.len() <= GREATEST, Refusal::SIZE)?;
    let records = field(head, u64::BITS - KIND_BITS - COUNT_BITS, COUNT_BITS) as u16;
    need(records > 0, Refusal::RANGE.at(KIND_BITS))?;

    let mut found = Found { records, numbers: 0, entries: 0 };
    let mut at = HEAD_BITS;
    for _ in 0..records {
        let opening = Opening::at(message, at);
        opening.judge(message)?;
        found.numbers += opening.numbers();
        found.entries += opening.entries;
        at = opening.end();
    }
    close(message, at)?;
    Ok(found)
}

/// The records end at a bit: what is left of its byte is fill, and no byte is left behind that.
fn close(message: &[u8], at: usize) -> Result<(), Refusal> {
    let end = at.div_ceil(8);
    let fill = 8 * end - at;
    need(fill == 0 || message[end - 1] << (8 - fill) == 0, Refusal::FILL.at(at as u32))?;
    need(end == message.len(), Refusal::SIZE.at(8 * end as u32))
}

/// The openings of a good telegram's records.
fn openings(message: &[u8], records: u16) -> impl Iterator<Item = Opening> + '_ {
    let mut at = HEAD_BITS;
    (0..records).map(move |_| {
        let opening = Opening::at(message, at);
        at = opening.end();
        opening
    })
}

/// Takes the first numbers off a row.
fn take<'a>(row: &mut &'a mut [u32], count: usize) -> &'a mut [u32] {
    let (first, rest) = mem::take(row).split_at_mut(count);
    *row = rest;
    first
}

/// Reads a telegram into a lent row. Answers how many records there are, and how many numbers they take.
pub fn read(message: &[u8], row: &mut [u32]) -> Result<(u16, usize), Refusal> {
    let found = judge(message)?;
    let mut free = row.get_mut(..found.numbers).ok_or(Refusal::ROOM)?;
    for opening in openings(message, found.records) {
        opening.fill(take(&mut free, opening.lead()));
        let numbers = take(&mut free, entry::NUMBERS * opening.entries);
        for (numbers, entry) in numbers.as_chunks_mut().0.iter_mut().zip(opening.list(message)) {
            *numbers = entry::numbers(entry);
        }
    }
    Ok((found.records, found.numbers))
}

/// Fills a row with the heights of a telegram in centimetres, and answers how many there are.
pub fn heights(message: &[u8], row: &mut [i32]) -> Result<usize, Refusal> {
    let found = judge(message)?;
    let mut free = row.get_mut(..found.entries).ok_or(Refusal::ROOM)?.iter_mut();
    for opening in openings(message, found.records) {
        for (entry, height) in opening.list(message).zip(&mut free) {
            *height = entry::height(entry);
        }
    }
    Ok(found.entries)
}
