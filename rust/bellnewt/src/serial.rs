//! The serial frames GLJC, TXSQ, TXXX and TXHZ.
//!
//! A frame's record is a struct of its numbers. Beside it goes a run of bytes: the content of TXSQ and TXXX, the five
//! receipts of TXHZ. GLJC's run is empty.
//!
//! ```
//! use bellnewt::serial::{self, Txsq};
//! use bellnewt::Refusal;
//!
//! let request =
//!     Txsq { address: 131_258, category: 1, mode: 1, password: 0, receiver: 131_258, bits: 16, answer: 0 };
//! let mut frame = [0; 20];
//! serial::write(&mut frame, &request, &[0xA4, 0x31])?;
//! serial::correct::<Txsq>(&mut frame, Txsq::RECEIVER, 200_001)?;
//!
//! let (request, content) = serial::read::<Txsq>(&frame)?;
//! assert_eq!((request.receiver, content), (200_001, &[0xA4, 0x31][..]));
//!
//! frame[19] ^= 1;
//! assert_eq!(serial::read::<Txsq>(&frame), Err(Refusal::CHECKSUM));
//! # Ok::<(), Refusal>(())
//! ```

use crate::call::{self, answer, Calls, Correct, Read};
use record::Refusal;
use std::ops::Range;

#[doc(inline)]
pub use record::{Frame, Gljc, Txhz, Txsq, Txxx};

extern "C" {
    fn bellnewt_gljc_read(frame: *const u8, len: usize, row: *mut i64, row_len: usize) -> u32;
    fn bellnewt_gljc_write(buf: *mut u8, len: usize, address: u32, minutes: u8) -> u32;
    fn bellnewt_gljc_correct(frame: *mut u8, len: usize, field: usize, value: u64) -> u32;
    fn bellnewt_txsq_read(frame: *const u8, len: usize, row: *mut i64, row_len: usize) -> u32;
    fn bellnewt_txsq_write(
        buf: *mut u8,
        len: usize,
        content: *const u8,
        content_len: usize,
        address: u32,
        category: u8,
        mode: u8,
        password: u8,
        receiver: u32,
        bits: u16,
        answer: u8,
    ) -> u32;
    fn bellnewt_txsq_correct(frame: *mut u8, len: usize, field: usize, value: u64) -> u32;
    fn bellnewt_txxx_read(frame: *const u8, len: usize, row: *mut i64, row_len: usize) -> u32;
    fn bellnewt_txxx_write(
        buf: *mut u8,
        len: usize,
        content: *const u8,
        content_len: usize,
        address: u32,
        class: u8,
        sender: u32,
        hour: u8,
        minute: u8,
        bits: u16,
        mark: u8,
    ) -> u32;
    fn bellnewt_txxx_correct(frame: *mut u8, len: usize, field: usize, value: u64) -> u32;
    fn bellnewt_txhz_read(frame: *const u8, len: usize, row: *mut i64, row_len: usize) -> u32;
    fn bellnewt_txhz_write(
        buf: *mut u8,
        len: usize,
        receipts: *const u8,
        receipts_len: usize,
        address: u32,
        receiver: u32,
        count: u8,
    ) -> u32;
    fn bellnewt_txhz_correct(frame: *mut u8, len: usize, field: usize, value: u64) -> u32;
}

/// The longest of the rows.
const LONGEST_ROW: usize = Txhz::ROW;

/// A kind of frame that the library knows: [`Gljc`], [`Txsq`], [`Txxx`] or [`Txhz`]. No other type can be one.
pub trait Kind: Frame + Calls {
    /// Where the run stands in the frame that filled a row.
    #[doc(hidden)]
    fn run(row: &[i64; LONGEST_ROW]) -> Range<usize>;

    /// The library's answer to writing this record.
    #[doc(hidden)]
    fn put(&self, buf: &mut [u8], run: &[u8]) -> u32;
}

/// Reads a frame into the first entries of a row, as in C: two of GLJC, nine of TXSQ and of TXXX, 23 of TXHZ.
#[inline]
pub fn read_row<F: Kind>(frame: &[u8], row: &mut [i64]) -> Result<(), Refusal> {
    call::read_row::<F>(frame, row)
}

/// Reads a frame: its record, and its run as a part of the frame.
pub fn read<F: Kind>(frame: &[u8]) -> Result<(F, &[u8]), Refusal> {
    let mut row = [0; LONGEST_ROW];
    read_row::<F>(frame, &mut row)?;
    Ok((F::of_row(&row), &frame[F::run(&row)]))
}

/// Writes a frame into the front of a buffer. Bytes past it stay as they were.
///
/// A run that the kind cannot have is refused by [`Refusal::SIZE`]: any bytes for GLJC, another number than 20 for TXHZ.
#[inline]
pub fn write<F: Kind>(buf: &mut [u8], record: &F, run: &[u8]) -> Result<(), Refusal> {
    answer(record.put(buf, run))
}

/// Corrects a field of a frame in place, and its checksum. The record has the field numbers.
#[inline]
pub fn correct<F: Kind>(frame: &mut [u8], field: usize, value: u64) -> Result<(), Refusal> {
    call::correct::<F>(frame, field, value)
}

/// The content's first byte and size close the row of TXSQ and of TXXX.
fn content(row: &[i64; LONGEST_ROW]) -> Range<usize> {
    let [first, size] = [row[7], row[8]].map(|entry| entry as usize);
    first..first + size
}

// SAFETY: both calls are the library's.
unsafe impl Calls for Gljc {
    const READ: Read = bellnewt_gljc_read;
    const CORRECT: Correct = bellnewt_gljc_correct;
}

impl Kind for Gljc {
    fn run(_: &[i64; LONGEST_ROW]) -> Range<usize> {
        Gljc::RUN..Gljc::RUN
    }

    #[inline]
    fn put(&self, buf: &mut [u8], run: &[u8]) -> u32 {
        if !run.is_empty() {
            return record::answer(Err(Refusal::SIZE));
        }
        // SAFETY: see `call`.
        unsafe { bellnewt_gljc_write(buf.as_mut_ptr(), buf.len(), self.address, self.minutes) }
    }
}

// SAFETY: both calls are the library's.
unsafe impl Calls for Txsq {
    const READ: Read = bellnewt_txsq_read;
    const CORRECT: Correct = bellnewt_txsq_correct;
}

impl Kind for Txsq {
    fn run(row: &[i64; LONGEST_ROW]) -> Range<usize> {
        content(row)
    }

    #[inline]
    fn put(&self, buf: &mut [u8], run: &[u8]) -> u32 {
        // SAFETY: see `call`.
        unsafe {
            bellnewt_txsq_write(
                buf.as_mut_ptr(),
                buf.len(),
                run.as_ptr(),
                run.len(),
                self.address,
                self.category,
                self.mode,
                self.password,
                self.receiver,
                self.bits,
                self.answer,
            )
        }
    }
}

// SAFETY: both calls are the library's.
unsafe impl Calls for Txxx {
    const READ: Read = bellnewt_txxx_read;
    const CORRECT: Correct = bellnewt_txxx_correct;
}

impl Kind for Txxx {
    fn run(row: &[i64; LONGEST_ROW]) -> Range<usize> {
        content(row)
    }

    #[inline]
    fn put(&self, buf: &mut [u8], run: &[u8]) -> u32 {
        // SAFETY: see `call`.
        unsafe {
            bellnewt_txxx_write(
                buf.as_mut_ptr(),
                buf.len(),
                run.as_ptr(),
                run.len(),
                self.address,
                self.class,
                self.sender,
                self.hour,
                self.minute,
                self.bits,
                self.mark,
            )
        }
    }
}

// SAFETY: both calls are the library's.
unsafe impl Calls for Txhz {
    const READ: Read = bellnewt_txhz_read;
    const CORRECT: Correct = bellnewt_txhz_correct;
}

impl Kind for Txhz {
    fn run(_: &[i64; LONGEST_ROW]) -> Range<usize> {
        Txhz::RUN..Txhz::RUN + Txhz::RECEIPTS
    }

    #[inline]
    fn put(&self, buf: &mut [u8], run: &[u8]) -> u32 {
        // SAFETY: see `call`.
        unsafe {
            bellnewt_txhz_write(
                buf.as_mut_ptr(),
                buf.len(),
                run.as_ptr(),
                run.len(),
                self.address,
                self.receiver,
                self.count,
            )
        }
    }
}
