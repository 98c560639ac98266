//! The serial frames (01, "Serial frames"; 004, 3 and 4): what the four kinds share.

mod gljc;
mod txhz;
mod txsq;
mod txxx;

use super::{narrow, need, xor, LARGEST_ADDRESS};
use record::{Frame, Gljc, Refusal, Txhz, Txsq, Txxx};
use std::ops::RangeInclusive;

/// What a kind of frame has of its own.
pub trait Kind: Frame {
    const SIZES: RangeInclusive<usize>;

    /// The numbers of a frame of a good size. Only what has no place in the record is judged.
    fn unpack(frame: &[u8]) -> Result<Self, Refusal>;

    /// Judges a record in bit order.
    fn judge(&self, run: &[u8]) -> Result<(), Refusal>;

    /// Puts the numbers into a frame of their size.
    fn pack(&self, frame: &mut [u8]);

    fn fill_row(&self, run: &[u8], row: &mut [i64]) -> Result<(), Refusal>;

    /// Changes a field in the frame that this record was read from; the seal is then another.
    fn change(self, frame: &mut [u8], field: usize, value: u64) -> Result<(), Refusal>;

    /// Puts the numbers into the frame that they were read from, if it is good with them.
    fn replace(&self, frame: &mut [u8]) -> Result<(), Refusal> {
        self.judge(run::<Self>(frame))?;
        self.pack(frame);
        Ok(())
    }
}

const SMALLEST: usize = 12;
/// The most bits that a content has.
const LONGEST: u16 = 1_680;

/// Reads a frame: the numbers, and the run as a part of it.
pub fn read<F: Kind>(frame: &[u8]) -> Result<(F, &[u8]), Refusal> {
    need(frame.len() >= SMALLEST, Refusal::SIZE)?;
    need(frame[0] == b'$' && frame[1..5] == *F::LETTERS.as_bytes(), Refusal::KIND)?;
    need(F::SIZES.contains(&frame.len()) && usize::from(u16_at(frame, 5)) == frame.len(), Refusal::SIZE)?;
    let (seal, sealed) = frame.split_last().ok_or(Refusal::SIZE)?;
    need(xor(sealed) == *seal, Refusal::CHECKSUM)?;
    let (record, run) = (F::unpack(frame)?, run::<F>(frame));
    record.judge(run)?;
    Ok((record, run))
}

pub fn read_row<F: Kind>(frame: &[u8], row: &mut [i64]) -> Result<(), Refusal> {
    let (record, run) = read::<F>(frame)?;
    record.fill_row(run, row)
}

/// What reading a frame of any kind answers: a kind answers 2 to all frames of the others, so another answer decides.
pub fn read_any(frame: &[u8]) -> Result<(), Refusal> {
    let answers = [
        read::<Gljc>(frame).map(drop),
        read::<Txsq>(frame).map(drop),
        read::<Txxx>(frame).map(drop),
        read::<Txhz>(frame).map(drop),
    ];
    answers.into_iter().find(|answer| *answer != Err(Refusal::KIND)).unwrap_or(Err(Refusal::KIND))
}

pub fn write<F: Kind>(buf: &mut [u8], record: &F, run: &[u8]) -> Result<(), Refusal> {
    record.judge(run)?;
    let size = F::BARE + run.len();
    let frame = buf.get_mut(..size).ok_or(Refusal::ROOM)?;
    frame[0] = b'$';
    frame[1..5].copy_from_slice(F::LETTERS.as_bytes());
    frame[5..7].copy_from_slice(&(size as u16).to_be_bytes());
    frame[F::RUN..F::RUN + run.len()].copy_from_slice(run);
    record.pack(frame);
    seal(frame);
    Ok(())
}

pub fn correct<F: Kind>(frame: &mut [u8], field: usize, value: u64) -> Result<(), Refusal> {
    let (record, _) = read::<F>(frame)?;
    record.change(frame, field, value)?;
    seal(frame);
    Ok(())
}

/// The run of a frame of a good size.
fn run<F: Frame>(frame: &[u8]) -> &[u8] {
    &frame[F::RUN..F::RUN + frame.len() - F::BARE]
}

/// Makes the last byte of a frame its checksum.
#[inline]
pub fn seal(frame: &mut [u8]) {
    if let Some((seal, sealed)) = frame.split_last_mut() {
        *seal = xor(sealed);
    }
}

#[inline]
fn u16_at(frame: &[u8], at: usize) -> u16 {
    u16::from_be_bytes([frame[at], frame[at + 1]])
}

#[inline]
fn u24_at(frame: &[u8], at: usize) -> u32 {
    u32::from_be_bytes([0, frame[at], frame[at + 1], frame[at + 2]])
}

#[inline]
fn put_u24(frame: &mut [u8], at: usize, value: u32) {
    frame[at..at + 3].copy_from_slice(&value.to_be_bytes()[1..]);
}

/// The bit that the own address starts at, in every kind.
const ADDRESS: u32 = 56;

/// An address that starts at a bit.
#[inline]
fn need_address(address: u32, at: u32) -> Result<(), Refusal> {
    need(address <= LARGEST_ADDRESS, Refusal::RANGE.at(at))
}

/// An hour that starts at a bit, and the minute behind it.
#[inline]
fn need_time(hour: u8, minute: u8, at: u32) -> Result<(), Refusal> {
    need(hour <= 23, Refusal::RANGE.at(at))?;
    need(minute <= 59, Refusal::RANGE.at(at + 8))
}

/// The content has as many bytes as the bit length takes, which starts at a bit.
#[inline]
fn need_bytes(content: &[u8], bits: u16, at: u32) -> Result<(), Refusal> {
    need(content.len() == usize::from(bits.div_ceil(8)), Refusal::SIZE.at(at))
}

/// The low bits that the last byte of the content doesn't use are zero. The content starts at a bit.
#[inline]
fn need_fill(content: &[u8], bits: u16, at: u32) -> Result<(), Refusal> {
    let used = bits % 8;
    if used == 0 || content.last().is_none_or(|last| last << used == 0) {
        Ok(())
    } else {
        Err(fill(at + u32::from(bits)))
    }
}

#[cold]
fn fill(at: u32) -> Refusal {
    Refusal::FILL.at(at)
}
