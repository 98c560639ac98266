//! The notice: a head, up to 15 areas on the chart, and a text.
//!
//! A notice does not say its own language. Its packets do, so every call is told it: [`CHINESE`](crate::packet::CHINESE)
//! or [`ENGLISH`](crate::packet::ENGLISH).
//!
//! ```
//! use bellnewt::notice::{self, Angle, Area, Expiry, Field, Head, Notice, Point};
//! use bellnewt::packet::ENGLISH;
//!
//! let north = Angle { negative: false, degrees: 30, minutes: 15, hundredths: 50 };
//! let east = Angle { negative: false, degrees: 122, minutes: 30, hundredths: 0 };
//! let notice = Notice {
//!     head: Head { source: 11, station: 2, serial: 123, year: 24, kind: 4, subtype: 11, expiry: 0 },
//!     areas: vec![Area::Circle { centre: Point::new(north, east), radius: 25, unit: 2 }],
//!     text: b"KEEP CLEAR".to_vec(),
//! };
//! let mut bytes = vec![0; notice.bytes()];
//! notice::write(&mut bytes, ENGLISH, &notice)?;
//!
//! let expiry = Expiry { next_year: false, month: 9, day: 1, hour: 12, minute: 0 };
//! notice::correct(&mut bytes, ENGLISH, Field::Expiry, expiry.number().into())?;
//! assert_eq!(Expiry::of_number(notice::read(&bytes, ENGLISH)?.head.expiry), Some(expiry));
//! assert_eq!(notice::outline(&bytes, ENGLISH)?, [[181_550, 735_000]]);
//! # Ok::<(), bellnewt::Refusal>(())
//! ```

mod area;
mod expiry;
mod field;

pub use area::{Angle, Area, Point};
pub use expiry::Expiry;
pub use field::Field;
#[doc(inline)]
pub use record::Head;

use crate::call::answer;
use record::Refusal;

/// A notice.
#[derive(Clone, PartialEq, Eq, Debug)]
pub struct Notice {
    /// What it says before its areas.
    pub head: Head,
    /// The areas, at most 15.
    pub areas: Vec<Area>,
    /// The text. English: bytes 0x20 to 0x7E. Chinese: those, and pairs of GB 2312 level one.
    pub text: Vec<u8>,
}

impl Notice {
    /// The least bytes of a notice.
    pub const LEAST: usize = 8;
    /// The most bytes of a notice.
    pub const GREATEST: usize = 12_978;
    /// How many entries a notice takes in a row: the head's, how many areas, entries of areas and bytes of text.
    pub const ROW: usize = Head::ROW + 3;
    /// The most areas.
    pub const AREAS: usize = 15;
    /// The most points of an area.
    pub const POINTS: usize = 15;
    /// The most entries that areas take. Each has its kind, its count, and two for a point.
    pub const ENTRIES: usize = Notice::AREAS * (2 + 2 * Notice::POINTS);
    /// The most bytes of text. A notice without areas has 63 bits before it.
    pub const TEXT: usize = Notice::GREATEST - 8;

    /// How many bytes the notice takes. The last of them ends in 0 to 7 bits of padding.
    pub fn bytes(&self) -> usize {
        let areas: usize = self.areas.iter().map(Area::bits).sum();
        (63 + areas).div_ceil(8) + self.text.len()
    }
}

/// The number that parts of some width spell together. Where one is too wide, it is a number too wide for any field.
pub(crate) fn spelled(parts: &[(u32, u8)]) -> u32 {
    let fit = parts.iter().all(|(width, part)| u32::from(*part) >> width == 0);
    if !fit {
        return u32::MAX;
    }
    parts.iter().fold(0, |number, (width, part)| number << width | u32::from(*part))
}

extern "C" {
    fn bellnewt_notice_read(
        s: *const u8,
        len: usize,
        language: u8,
        row: *mut i64,
        row_len: usize,
        areas: *mut u32,
        areas_len: usize,
        text: *mut u8,
        text_len: usize,
    ) -> u32;
    fn bellnewt_notice_write(
        buf: *mut u8,
        buf_len: usize,
        areas: *const u32,
        areas_len: usize,
        text: *const u8,
        text_len: usize,
        language: u8,
        source: u8,
        station: u8,
        serial: u16,
        year: u8,
        kind: u8,
        subtype: u8,
        expiry: u32,
        count: u8,
    ) -> u32;
    fn bellnewt_notice_correct(s: *mut u8, len: usize, language: u8, field: usize, value: u64) -> u32;
    fn bellnewt_outline(
        s: *const u8,
        len: usize,
        language: u8,
        row: *mut i32,
        row_len: usize,
        points: *mut usize,
    ) -> u32;
}

/// Reads a notice into three rows, as in C: its numbers, the entries of its areas, and the bytes of its text.
#[inline]
pub fn read_row(
    message: &[u8],
    language: u8,
    row: &mut [i64],
    areas: &mut [u32],
    text: &mut [u8],
) -> Result<(), Refusal> {
    // SAFETY: see `call`.
    answer(unsafe {
        bellnewt_notice_read(
            message.as_ptr(),
            message.len(),
            language,
            row.as_mut_ptr(),
            row.len(),
            areas.as_mut_ptr(),
            areas.len(),
            text.as_mut_ptr(),
            text.len(),
        )
    })
}

/// Reads a notice.
pub fn read(message: &[u8], language: u8) -> Result<Notice, Refusal> {
    let mut row = [0; Notice::ROW];
    let mut areas = [0; Notice::ENTRIES];
    let mut text = vec![0; message.len()];
    read_row(message, language, &mut row, &mut areas, &mut text)?;
    let [.., entries, bytes] = row.map(|entry| entry as usize);
    text.truncate(bytes);
    Ok(Notice { head: Head::of_row(&row), areas: Area::list(&areas[..entries]), text })
}

/// Writes a notice of `count` areas, whose entries are in a row, into the front of a buffer, as in C.
#[inline]
pub fn write_row(
    buf: &mut [u8],
    language: u8,
    head: &Head,
    count: u8,
    areas: &[u32],
    text: &[u8],
) -> Result<(), Refusal> {
    // SAFETY: see `call`.
    answer(unsafe {
        bellnewt_notice_write(
            buf.as_mut_ptr(),
            buf.len(),
            areas.as_ptr(),
            areas.len(),
            text.as_ptr(),
            text.len(),
            language,
            head.source,
            head.station,
            head.serial,
            head.year,
            head.kind,
            head.subtype,
            head.expiry,
            count,
        )
    })
}

/// Writes a notice into the front of a buffer. [`Notice::bytes`] says how many it takes. Bytes past them stay.
pub fn write(buf: &mut [u8], language: u8, notice: &Notice) -> Result<(), Refusal> {
    // More areas than a count can tell are refused, like all above 15.
    let count = u8::try_from(notice.areas.len()).unwrap_or(u8::MAX);
    let areas: Vec<u32> = notice.areas.iter().flat_map(Area::entries).collect();
    write_row(buf, language, &notice.head, count, &areas, &notice.text)
}

/// Corrects the field of a number in place, as in C: 0 to 6 are the head's, 8 and above the entries of its areas.
#[inline]
pub fn correct_field(message: &mut [u8], language: u8, field: usize, value: u64) -> Result<(), Refusal> {
    // SAFETY: see `call`.
    answer(unsafe { bellnewt_notice_correct(message.as_mut_ptr(), message.len(), language, field, value) })
}

/// Corrects a field in place to the number that its bits shall spell.
pub fn correct(message: &mut [u8], language: u8, field: Field, value: u64) -> Result<(), Refusal> {
    let notice = read(message, language)?;
    let number = field.number(&notice.areas).ok_or(Refusal::FIELD)?;
    correct_field(message, language, number, value)
}

/// Fills a row with the points of a notice, as in C, and puts how many they are into `points`.
///
/// A point is its latitude, then its longitude, in hundredths of a minute, south and west negative.
#[inline]
pub fn outline_row(message: &[u8], language: u8, row: &mut [i32], points: &mut usize) -> Result<(), Refusal> {
    // SAFETY: see `call`.
    answer(unsafe { bellnewt_outline(message.as_ptr(), message.len(), language, row.as_mut_ptr(), row.len(), points) })
}

/// The points of a notice for a chart: latitude and longitude of each, in hundredths of a minute, south and west
/// negative. A circle gives its centre, a sea area nothing.
pub fn outline(message: &[u8], language: u8) -> Result<Vec<[i32; 2]>, Refusal> {
    let (mut row, mut points) = ([0; 2 * Notice::AREAS * Notice::POINTS], 0);
    outline_row(message, language, &mut row, &mut points)?;
    Ok(row.chunks_exact(2).take(points).map(|point| [point[0], point[1]]).collect())
}
