//! The distress report, and the sentence that carries one.
//!
//! ```
//! use bellnewt::distress::{self, Report};
//!
//! let report = Report { mmsi: 123_456_789, longitude: 7_387_407, latitude: 107_380, day: 9, ..Report::default() };
//! let mut message = [0; Report::BYTES];
//! distress::write(&mut message, &report)?;
//! distress::correct(&mut message, Report::DAY, 10)?;
//! assert_eq!(distress::read(&message)?, Report { day: 10, ..report });
//!
//! let mut sentence = [0; 60];
//! let size = distress::write_sentence(&mut sentence, 1_234_567, &report)?;
//! assert_eq!(distress::read_sentence(&sentence[..size])?, (1_234_567, report));
//! # Ok::<(), bellnewt::Refusal>(())
//! ```

use crate::call::answer;
use record::Refusal;

#[doc(inline)]
pub use record::Report;

extern "C" {
    fn bellnewt_distress_read(s: *const u8, len: usize, row: *mut i64, row_len: usize) -> u32;
    fn bellnewt_distress_write(
        buf: *mut u8,
        len: usize,
        mmsi: u32,
        longitude: i32,
        latitude: i32,
        day: u8,
        hour: u8,
        minute: u8,
        speed: u8,
        course: u16,
        kind: u8,
    ) -> u32;
    fn bellnewt_distress_correct(s: *mut u8, len: usize, field: usize, value: u64) -> u32;
    fn bellnewt_sentence_read(s: *const u8, len: usize, row: *mut i64, row_len: usize) -> u32;
    fn bellnewt_sentence_write(
        buf: *mut u8,
        len: usize,
        size: *mut usize,
        address: u32,
        mmsi: u32,
        longitude: i32,
        latitude: i32,
        day: u8,
        hour: u8,
        minute: u8,
        speed: u8,
        course: u16,
        kind: u8,
    ) -> u32;
}

/// Reads a report into the first nine entries of a row, as in C.
#[inline]
pub fn read_row(message: &[u8], row: &mut [i64]) -> Result<(), Refusal> {
    // SAFETY: see `call`.
    answer(unsafe { bellnewt_distress_read(message.as_ptr(), message.len(), row.as_mut_ptr(), row.len()) })
}

/// Reads a report.
pub fn read(message: &[u8]) -> Result<Report, Refusal> {
    let mut row = [0; Report::ROW];
    read_row(message, &mut row)?;
    Ok(Report::of_row(&row))
}

/// Writes a report into the first 17 bytes of a buffer. Bytes past them stay as they were.
#[inline]
pub fn write(buf: &mut [u8], report: &Report) -> Result<(), Refusal> {
    // SAFETY: see `call`.
    answer(unsafe {
        bellnewt_distress_write(
            buf.as_mut_ptr(),
            buf.len(),
            report.mmsi,
            report.longitude,
            report.latitude,
            report.day,
            report.hour,
            report.minute,
            report.speed,
            report.course,
            report.kind,
        )
    })
}

/// Corrects a field of a report in place. [`Report`] has the field numbers.
#[inline]
pub fn correct(message: &mut [u8], field: usize, value: u64) -> Result<(), Refusal> {
    // SAFETY: see `call`.
    answer(unsafe { bellnewt_distress_correct(message.as_mut_ptr(), message.len(), field, value) })
}

/// Reads a sentence into the first ten entries of a row, as in C: the address, then the report.
#[inline]
pub fn read_sentence_row(sentence: &[u8], row: &mut [i64]) -> Result<(), Refusal> {
    // SAFETY: see `call`.
    answer(unsafe { bellnewt_sentence_read(sentence.as_ptr(), sentence.len(), row.as_mut_ptr(), row.len()) })
}

/// Reads a sentence: the address that it is sent to, 1 to 2,097,151, and the report.
pub fn read_sentence(sentence: &[u8]) -> Result<(u32, Report), Refusal> {
    let mut row = [0; 1 + Report::ROW];
    read_sentence_row(sentence, &mut row)?;
    let [address, report @ ..] = row;
    Ok((address as u32, Report::of_row(&report)))
}

/// Writes a sentence into the front of a buffer and its size into `size`, as in C.
#[inline]
pub fn write_sentence_sized(buf: &mut [u8], size: &mut usize, address: u32, report: &Report) -> Result<(), Refusal> {
    // SAFETY: see `call`.
    answer(unsafe {
        bellnewt_sentence_write(
            buf.as_mut_ptr(),
            buf.len(),
            size,
            address,
            report.mmsi,
            report.longitude,
            report.latitude,
            report.day,
            report.hour,
            report.minute,
            report.speed,
            report.course,
            report.kind,
        )
    })
}

/// Writes a sentence into the front of a buffer and answers its size, 54 to 60 bytes.
pub fn write_sentence(buf: &mut [u8], address: u32, report: &Report) -> Result<usize, Refusal> {
    let mut size = 0;
    write_sentence_sized(buf, &mut size, address, report)?;
    Ok(size)
}
