//! A tide telegram that is written from its row.

use super::opening::{good_point, POINT_BITS, PORT_BITS};
use super::{entry, COUNT_BITS, GREATEST, HEAD_BITS, KIND, KIND_BITS};
use crate::need;
use crate::notice::area::Part::{Latitude, Longitude};
use record::Refusal;
use std::mem;

/// The most records, and the most entries of one: what nine bits tell.
const MOST: u32 = (1 << COUNT_BITS) - 1;

/// The opening of a record to be written.
struct Lead {
    width: u32,
    bits: u64,
    /// How many numbers of the row it is.
    numbers: usize,
    entries: usize,
}

/// What counts for the numbers of an entry that a row has not: 1 January, 0:00, and one centimetre.
const MISSING: [u32; entry::NUMBERS] = [1 << 16 | 1 << 11, 1, 1];

/// The number at a place of a row. Where there is none a good one counts, till room is tested.
#[inline]
fn number(row: &[u32], at: usize, good: u32) -> u32 {
    row.get(at).copied().unwrap_or(good)
}

/// The opening that stands at a place of a row; none where a number of it is bad.
#[inline]
fn lead(row: &[u32], at: usize) -> Option<Lead> {
    let [kind, first, second] = [0, 1, 2].map(|next| number(row, at + next, 0));
    let (is_good, width, position, numbers) = match kind {
        0 => (first <= 63, PORT_BITS, u64::from(first), 4),
        1 => (good_point(first, second), POINT_BITS, 1 << 43 | u64::from(first) << 22 | u64::from(second), 5),
        _ => return None,
    };
    let (forecast, entries) = (number(row, at + numbers - 2, 0), number(row, at + numbers - 1, 1));
    let is_good = is_good & (forecast <= 1) & (1..=MOST).contains(&entries);
    let bits = position << 10 | u64::from(forecast) << 9 | u64::from(entries);
    is_good.then_some(Lead { width, bits, numbers, entries: entries as usize })
}

/// What refuses an opening of which a number is bad, to stand from a bit on.
#[cold]
fn lead_fault(row: &[u32], at: usize, start: u32) -> Refusal {
    let [kind, first, second] = [0, 1, 2].map(|next| number(row, at + next, 0));
    let (position, forecast, before) = match kind {
        0 => (need(first <= 63, Refusal::RANGE.at(start + 1)), at + 2, 7),
        1 => {
            let latitude = Latitude.judge(first, start + 1);
            (latitude.and_then(|()| Longitude.judge(second, start + 22)), at + 3, 44)
        }
        _ => return Refusal::RANGE.at(start),
    };
    let entries_at = start + before + 1;
    let rest = need(number(row, forecast, 0) <= 1, Refusal::RANGE.at(start + before));
    position.and(rest).err().unwrap_or(Refusal::RANGE.at(entries_at))
}

/// Three numbers are those of a good entry.
#[inline]
fn good_entry(numbers: &[u32; entry::NUMBERS]) -> bool {
    entry::spelled(numbers).is_some_and(entry::good)
}

/// The entries of a row, three numbers each.
#[inline]
fn threes(row: &[u32]) -> &[[u32; entry::NUMBERS]] {
    row.as_chunks().0
}

/// Judges so many entries from a place of a row on.
#[inline]
fn good_entries(row: &[u32], at: usize, entries: usize) -> bool {
    match row.get(at..at + entry::NUMBERS * entries) {
        Some(numbers) => threes(numbers).iter().fold(true, |good, numbers| good & good_entry(numbers)),
        None => good_short(row, at, entries),
    }
}

/// The numbers of so many entries from a place of a row on, whether it has them or not.
fn all_threes(row: &[u32], at: usize, entries: usize) -> impl Iterator<Item = [u32; entry::NUMBERS]> + '_ {
    (0..entries).map(move |index| [0, 1, 2].map(|next| number(row, at + entry::NUMBERS * index + next, MISSING[next])))
}

/// Judges entries that the row is too short for.
#[cold]
fn good_short(row: &[u32], at: usize, entries: usize) -> bool {
    all_threes(row, at, entries).all(|numbers| good_entry(&numbers))
}

/// What refuses entries of which one is bad, to stand from a bit on.
#[cold]
fn entries_fault(row: &[u32], at: usize, entries: usize, start: usize) -> Refusal {
    let mut threes = all_threes(row, at, entries).enumerate();
    let (index, numbers) = threes.find(|(_, numbers)| !good_entry(numbers)).expect("a bad entry");
    entry::fault_of(&numbers, (start + entry::BITS * index) as u32)
}

/// Judges the records of a row. Answers how many numbers they are, and how many bits the telegram has.
fn judge(count: u16, row: &[u32]) -> Result<(usize, usize), Refusal> {
    need((1..=MOST).contains(&count.into()), Refusal::RANGE.at(KIND_BITS))?;
    let (mut at, mut bits) = (0, HEAD_BITS);
    for _ in 0..count {
        let lead = lead(row, at).ok_or_else(|| lead_fault(row, at, bits as u32))?;
        at += lead.numbers;
        bits += lead.width as usize;
        if !good_entries(row, at, lead.entries) {
            return Err(entries_fault(row, at, lead.entries, bits));
        }
        at += entry::NUMBERS * lead.entries;
        bits += entry::BITS * lead.entries;
    }
    Ok((at, bits))
}

/// Writes the telegram of so many records, whose numbers stand in a row.
pub fn write(buf: &mut [u8], count: u16, row: &[u32]) -> Result<(), Refusal> {
    let (numbers, bits) = judge(count, row)?;
    let size = bits.div_ceil(8);
    need(size <= GREATEST, Refusal::SIZE)?;
    let telegram = buf.get_mut(..size).ok_or(Refusal::ROOM)?;
    let row = row.get(..numbers).ok_or(Refusal::ROOM)?;

    let mut writer = Writer { free: telegram, bits: 0, held: 0 };
    writer.put(HEAD_BITS as u32, KIND << COUNT_BITS | u64::from(count));
    let mut at = 0;
    while at < row.len() {
        let lead = lead(row, at).ok_or(Refusal::RANGE)?;
        writer.put(lead.width, lead.bits);
        at += lead.numbers;
        let end = at + entry::NUMBERS * lead.entries;
        writer.put_entries(&row[at..end]);
        at = end;
    }
    writer.end();
    Ok(())
}

/// Fills a telegram from its front.
struct Writer<'a> {
    free: &'a mut [u8],
    /// The lowest `held` of these bits are not in the telegram yet, 7 at most.
    bits: u64,
    held: u32,
}

impl Writer<'_> {
    /// Puts a value into the next `width` bits, 1 to 57 of them, which can spell it.
    fn put(&mut self, width: u32, value: u64) {
        self.bits = self.bits << width | value;
        self.held += width;
        let bytes = (self.bits << (64 - self.held)).to_be_bytes();
        let free = mem::take(&mut self.free);
        // Bytes behind the whole ones are put again with what comes next.
        match free.first_chunk_mut() {
            Some(front) => *front = bytes,
            None => free.iter_mut().zip(bytes).for_each(|(to, byte)| *to = byte),
        }
        self.free = &mut free[self.held as usize / 8..];
        self.held %= 8;
    }

    /// Puts the entries of a row, which are good.
    fn put_entries(&mut self, row: &[u32]) {
        let (entries, rest) = mem::take(&mut self.free).split_at_mut(4 * (row.len() / entry::NUMBERS));
        self.free = rest;
        for (to, numbers) in entries.as_chunks_mut().0.iter_mut().zip(threes(row)) {
            self.bits = self.bits << 32 | u64::from(entry::spelled(numbers).unwrap_or(0));
            *to = ((self.bits >> self.held) as u32).to_be_bytes();
        }
    }

    /// Ends the telegram by a fill of zeros.
    fn end(mut self) {
        if self.held > 0 {
            self.put(8 - self.held, 0);
        }
    }
}
