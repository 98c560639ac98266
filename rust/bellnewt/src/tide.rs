//! The tide telegram: levels of the tide at ports and at points, observed or forecast.
//!
//! ```
//! use bellnewt::tide::{self, Entry, Field, Position, Tide, Time};
//!
//! // At Tianjin, 312 cm were observed on 27 August at 06:30.
//! let time = Time { next_year: false, month: 8, day: 27, hour: 6, minute: 30 };
//! let tide = Tide::new().with(Position::Port(1), false, &[Entry { time, height: 312 }]);
//! let mut bytes = vec![0; tide.bytes()];
//! tide::write(&mut bytes, &tide)?;
//! assert_eq!(bytes, [0xE4, 0x20, 0x08, 0x10, 0x05, 0x1B, 0x33, 0xD4, 0xE0]);
//!
//! // The sign and the value are corrected each by itself.
//! tide::correct(&mut bytes, Field::Sign { record: 0, entry: 0 }, 0)?;
//! tide::correct(&mut bytes, Field::Value { record: 0, entry: 0 }, 45)?;
//! assert_eq!(tide::heights(&bytes)?, [-45]);
//!
//! for record in tide::read(&bytes)?.records() {
//!     assert_eq!((record.position, record.forecast), (Position::Port(1), false));
//!     assert!(record.entries().eq([Entry { time, height: -45 }]));
//! }
//! # Ok::<(), bellnewt::Refusal>(())
//! ```
//!
//! # The row
//!
//! In C, and in the calls that end in `_row`, a telegram is how many records it has, and a row of their numbers in bit
//! order: 0 and a port, or 1 and a point's latitude and longitude; 1 for a forecast and 0 for an observation; how many
//! entries there are; of each entry its time, its sign, which is 0 for a negative level, and its centimetres.
//! [`Records`] goes over such a row, and [`Tide`] makes one.

mod entry;
mod field;
mod records;

#[doc(inline)]
pub use crate::notice::{Angle, Point};
pub use entry::{Entry, Time};
pub use field::Field;
pub use records::{Position, Record, Records};

use crate::call::answer;
use record::Refusal;

/// A tide telegram, as its row.
#[derive(Clone, PartialEq, Eq, Debug, Default)]
pub struct Tide {
    count: u16,
    row: Vec<u32>,
}

impl Tide {
    /// The least bytes of a telegram.
    pub const LEAST: usize = 9;
    /// The most bytes of a telegram.
    pub const GREATEST: usize = 210;
    /// The most numbers that a telegram has room for: those of 33 ports with 34 entries.
    pub const ROW: usize = 33 * 4 + 34 * Entry::NUMBERS;
    /// The most entries that it has room for: those of one port.
    pub const HEIGHTS: usize = 51;
    /// The field number of the row's first entry. The others follow it.
    pub const FIRST_ENTRY: usize = 4;

    /// A telegram without records, which no call accepts.
    pub fn new() -> Tide {
        Tide::default()
    }

    /// The telegram with a record more.
    pub fn with(mut self, position: Position, forecast: bool, entries: &[Entry]) -> Tide {
        self.count = self.count.saturating_add(1);
        self.row.extend(position.numbers());
        // More entries than a count can tell are refused, like all above 511.
        self.row.extend([forecast.into(), u32::try_from(entries.len()).unwrap_or(u32::MAX)]);
        self.row.extend(entries.iter().flat_map(Entry::numbers));
        self
    }

    /// How many records it has.
    pub fn count(&self) -> u16 {
        self.count
    }

    /// Its numbers in bit order.
    pub fn row(&self) -> &[u32] {
        &self.row
    }

    /// Its records.
    pub fn records(&self) -> Records<'_> {
        Records::of_row(&self.row)
    }

    /// How many bytes it takes. The last of them ends in 0 to 7 bits of padding.
    pub fn bytes(&self) -> usize {
        let records: usize = self.records().map(|record| record.bits()).sum();
        (21 + records).div_ceil(8)
    }
}

extern "C" {
    fn bellnewt_tide_read(
        s: *const u8,
        len: usize,
        count: *mut u16,
        numbers: *mut usize,
        row: *mut u32,
        row_len: usize,
    ) -> u32;
    fn bellnewt_tide_write(buf: *mut u8, buf_len: usize, count: u16, row: *const u32, row_len: usize) -> u32;
    fn bellnewt_tide_correct(s: *mut u8, len: usize, field: usize, value: u64) -> u32;
    fn bellnewt_tide_heights(s: *const u8, len: usize, heights: *mut i32, heights_len: usize, count: *mut usize)
        -> u32;
}

/// Reads a telegram into a row, as in C. Puts how many records there are into `count`, and how many numbers of the row
/// they take into `numbers`.
#[inline]
pub fn read_row(message: &[u8], count: &mut u16, numbers: &mut usize, row: &mut [u32]) -> Result<(), Refusal> {
    // SAFETY: see `call`.
    answer(unsafe { bellnewt_tide_read(message.as_ptr(), message.len(), count, numbers, row.as_mut_ptr(), row.len()) })
}

/// Reads a telegram.
pub fn read(message: &[u8]) -> Result<Tide, Refusal> {
    let (mut count, mut numbers, mut row) = (0, 0, [0; Tide::ROW]);
    read_row(message, &mut count, &mut numbers, &mut row)?;
    Ok(Tide { count, row: row[..numbers].to_vec() })
}

/// Writes a telegram of `count` records, whose numbers are in a row, into the front of a buffer, as in C.
#[inline]
pub fn write_row(buf: &mut [u8], count: u16, row: &[u32]) -> Result<(), Refusal> {
    // SAFETY: see `call`.
    answer(unsafe { bellnewt_tide_write(buf.as_mut_ptr(), buf.len(), count, row.as_ptr(), row.len()) })
}

/// Writes a telegram into the front of a buffer. [`Tide::bytes`] says how many it takes. Bytes past them stay.
pub fn write(buf: &mut [u8], tide: &Tide) -> Result<(), Refusal> {
    write_row(buf, tide.count, &tide.row)
}

/// Corrects the field of a number in place, as in C: [`Tide::FIRST_ENTRY`] and above are the entries of its row.
#[inline]
pub fn correct_field(message: &mut [u8], field: usize, value: u64) -> Result<(), Refusal> {
    // SAFETY: see `call`.
    answer(unsafe { bellnewt_tide_correct(message.as_mut_ptr(), message.len(), field, value) })
}

/// Corrects a field in place to the number that its bits shall spell.
pub fn correct(message: &mut [u8], field: Field, value: u64) -> Result<(), Refusal> {
    let number = field.number(&read(message)?).ok_or(Refusal::FIELD)?;
    correct_field(message, number, value)
}

/// Fills a row with the heights of a telegram, as in C, and puts how many they are into `count`.
///
/// A height is in centimetres, negative where the sign is 0. There is one of each entry, record after record.
#[inline]
pub fn heights_row(message: &[u8], heights: &mut [i32], count: &mut usize) -> Result<(), Refusal> {
    // SAFETY: see `call`.
    answer(unsafe {
        bellnewt_tide_heights(message.as_ptr(), message.len(), heights.as_mut_ptr(), heights.len(), count)
    })
}

/// The heights of a telegram for a curve, in centimetres: one of each entry, record after record.
pub fn heights(message: &[u8]) -> Result<Vec<i32>, Refusal> {
    let (mut heights, mut count) = ([0; Tide::HEIGHTS], 0);
    heights_row(message, &mut heights, &mut count)?;
    Ok(heights[..count].to_vec())
}
