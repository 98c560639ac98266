//! The notice and its outline (01, "Notice and packet"; 000, 5.2.2.3).

pub(crate) mod area;
mod text;

use super::{bits, field, narrow, need, Tested};
use area::{walk, Part};
use bits::Writer;
use record::{Head, Refusal};

/// The least and the most bytes of a notice.
const LEAST: usize = 8;
pub const GREATEST: usize = 12_978;
/// The most areas.
const MOST_AREAS: usize = 15;
/// How many numbers reading puts into a row: the head's, how many areas, entries of areas and bytes of text.
const ROW: usize = 10;

/// The widths of the fields before the areas, in bit order: the head's, and how many areas there are.
const WIDTHS: [u32; 8] = [5, 4, 14, 7, 4, 4, 21, 4];
/// The bits that they start at, and the one behind them.
const STARTS: [u32; 8] = [0, 5, 9, 23, 30, 34, 38, 59];
const HEAD_BITS: usize = 63;
/// How many areas there are stands last among them. It decides the layout, so that it is not corrected.
const COUNT: usize = 7;
/// The first number that a correction names an entry of the areas by.
const FIRST_ENTRY: usize = 8;

/// What reading finds out of a notice: its head, and what its areas and text are.
struct Found {
    head: Head,
    areas: u32,
    /// How many entries the areas take in a row, and how many of them are latitudes and longitudes.
    entries: usize,
    angles: usize,
    /// The bit that the text starts at.
    text_at: usize,
}

/// Judges a whole notice.
fn find(message: &[u8], language: u8) -> Result<Found, Refusal> {
    need(language <= 1, Refusal::RANGE)?;
    let first = message.first_chunk().ok_or(Refusal::SIZE)?;
    need(message.len() <= GREATEST, Refusal::SIZE)?;
    let (head, areas) = head_of(first);
    if !head.good(()) {
        return Err(head_of(first).0.fault(()));
    }
    let mut found = Found { head, areas, entries: 0, angles: 0, text_at: HEAD_BITS };
    walk(areas, |part| {
        found.entries += 1;
        found.angles += usize::from(part.is_angle());
        part.read(message, &mut found.text_at)
    })?;
    let at = found.text_at;
    need(text::good(bits::bytes_from(message, at), language), Refusal::RANGE.at(at as u32))?;
    bits::need_fill(message, at)?;
    Ok(found)
}

/// The head and how many areas there are, from the bytes that hold them.
fn head_of(first: &[u8; LEAST]) -> (Head, u32) {
    let (bits, mut below) = (u64::from_be_bytes(*first), u64::BITS);
    let [source, station, serial, year, kind, subtype, expiry, areas] = WIDTHS.map(|width| {
        below -= width;
        field(bits, below, width)
    });
    let head = Head {
        source: source as u8,
        station: station as u8,
        serial: serial as u16,
        year: year as u8,
        kind: kind as u8,
        subtype: subtype as u8,
        expiry: expiry as u32,
    };
    (head, areas as u32)
}

impl Tested for Head {
    type Fills = ();

    /// The fields stand in their ranges.
    #[inline]
    fn tests(&self, (): (), test: &mut impl FnMut(bool, Refusal)) {
        let mut range = |good: bool, at: u32| test(good, Refusal::RANGE.at(at));
        range((1..=21).contains(&self.source), STARTS[0]);
        range((1..=3).contains(&self.station), STARTS[1]);
        range((1..=9_999).contains(&self.serial), STARTS[2]);
        range(self.year <= 99, STARTS[3]);
        range((1..=8).contains(&self.kind), STARTS[4]);
        range(good_subtype(self.kind, self.subtype), STARTS[5]);

        // Zero means not known. Else there is a month, a day, an hour and a minute; the calendar is not asked.
        let part = |below, width| field(self.expiry.into(), below, width);
        let none = self.expiry == 0;
        range(self.expiry < 1 << 21, STARTS[6]);
        range(none | (1..=12).contains(&part(16, 4)), STARTS[6] + 1);
        range(none | (part(11, 5) > 0), STARTS[6] + 5);
        range(part(6, 5) <= 23, STARTS[6] + 10);
        range(part(0, 6) <= 59, STARTS[6] + 15);
    }
}

/// A type has subtypes of its own, or 0 alone.
fn good_subtype(kind: u8, subtype: u8) -> bool {
    match kind {
        1 => (1..=10).contains(&subtype),
        4 | 6 => (1..=13).contains(&subtype),
        5 => (1..=8).contains(&subtype),
        _ => subtype == 0,
    }
}

/// Reads a notice into three lent rows: its numbers, the entries of its areas, and its text.
pub fn read(message: &[u8], language: u8, row: &mut [i64], areas: &mut [u32], text: &mut [u8]) -> Result<(), Refusal> {
    let found = find(message, language)?;
    let size = bits::bytes_from(message, found.text_at).len();
    let row: &mut [i64; ROW] = row.first_chunk_mut().ok_or(Refusal::ROOM)?;
    let areas = areas.get_mut(..found.entries).ok_or(Refusal::ROOM)?;
    let text = text.get_mut(..size).ok_or(Refusal::ROOM)?;

    row[..7].copy_from_slice(&found.head.row());
    row[7..].copy_from_slice(&[found.areas.into(), found.entries as i64, size as i64]);
    let (mut at, mut used) = (HEAD_BITS, 0);
    walk(found.areas, |part| {
        let value = part.take(message, &mut at);
        areas[used] = value;
        used += 1;
        Ok(value)
    })?;
    text.iter_mut().zip(bits::bytes_from(message, found.text_at)).for_each(|(to, byte)| *to = byte);
    Ok(())
}

/// Writes the notice of a head, of so many areas whose entries stand in a row, and of a text.
pub fn write(buf: &mut [u8], language: u8, head: &Head, count: u8, areas: &[u32], text: &[u8]) -> Result<(), Refusal> {
    need(language <= 1, Refusal::RANGE)?;
    head.judge(())?;
    need(usize::from(count) <= MOST_AREAS, Refusal::RANGE.at(STARTS[COUNT]))?;
    let (mut entries, mut bits) = (0, HEAD_BITS);
    walk(count.into(), |part| {
        // What is missing counts as 0 until room is tested.
        let value = areas.get(entries).copied().unwrap_or(0);
        part.judge(value, bits as u32)?;
        entries += 1;
        bits += part.width() as usize;
        Ok(value)
    })?;
    need(text::good(text.iter().copied(), language), Refusal::RANGE.at(bits as u32))?;
    let size = bits.div_ceil(8) + text.len();
    need(size <= GREATEST, Refusal::SIZE)?;
    let notice = buf.get_mut(..size).ok_or(Refusal::ROOM)?;
    need(entries <= areas.len(), Refusal::ROOM)?;

    let mut writer = Writer::new(notice);
    for (width, value) in WIDTHS.into_iter().zip(head.row().into_iter().chain([count.into()])) {
        writer.put(width, value as u32);
    }
    let mut entries = areas.iter().copied();
    walk(count.into(), |part| {
        let value = entries.next().unwrap_or(0);
        writer.put(part.width(), value);
        Ok(value)
    })?;
    writer.end(text);
    Ok(())
}

/// Corrects a field of the head, or an entry of the areas.
pub fn correct(message: &mut [u8], language: u8, number: usize, value: u64) -> Result<(), Refusal> {
    let found = find(message, language)?;
    let (at, width) = if number < FIRST_ENTRY {
        let width = change(found.head, number, value)?;
        (STARTS[number] as usize, width)
    } else {
        let (at, part) = entry(message, found.areas, number - FIRST_ENTRY).ok_or(Refusal::FIELD)?;
        need(part.is_free(), Refusal::FIELD)?;
        part.judge(narrow(value, part.width(), at as u32)? as u32, at as u32)?;
        (at, part.width())
    };
    bits::put(message, at, width, value);
    Ok(())
}

/// Judges the head with another value of a field, whose width it answers.
fn change(mut head: Head, number: usize, value: u64) -> Result<u32, Refusal> {
    need(number != COUNT, Refusal::FIELD)?;
    let width = WIDTHS[number];
    let value = narrow(value, width, STARTS[number])?;
    match number {
        0 => head.source = value as u8,
        1 => head.station = value as u8,
        2 => head.serial = value as u16,
        3 => head.year = value as u8,
        4 => head.kind = value as u8,
        5 => head.subtype = value as u8,
        _ => head.expiry = value as u32,
    }
    head.judge(())?;
    Ok(width)
}

/// The entry at a place in the row of a good notice's areas: the bit that it starts at, and what it is.
fn entry(message: &[u8], areas: u32, place: usize) -> Option<(usize, Part)> {
    let (mut at, mut index, mut sought) = (HEAD_BITS, 0, None);
    walk(areas, |part| {
        if index == place {
            sought = Some((at, part));
        }
        index += 1;
        Ok(part.take(message, &mut at))
    })
    .ok()?;
    sought
}

/// Fills a row with the points of a notice, latitude then longitude, and answers how many there are.
pub fn outline(message: &[u8], language: u8, row: &mut [i32]) -> Result<usize, Refusal> {
    let found = find(message, language)?;
    let row = row.get_mut(..found.angles).ok_or(Refusal::ROOM)?;
    let (mut at, mut used) = (HEAD_BITS, 0);
    walk(found.areas, |part| {
        let value = part.take(message, &mut at);
        if let Some(hundredths) = part.hundredths(value) {
            row[used] = hundredths;
            used += 1;
        }
        Ok(value)
    })?;
    Ok(found.angles / 2)
}
