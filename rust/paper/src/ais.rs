//! The AIS messages (01, "AIS"; 003, 4.6 and 4.7): what the two share, and how many slots they need.

mod area;
mod body;
mod time;
mod warning;

use super::{field, narrow, need, signed, within, Tested};
use record::{Ais, Area, Refusal, Warning};

/// What a message has of its own. Both have three fills.
///
/// The steps of reading and writing are inlined, so that the compiler asks once for the warning type or shape.
pub trait Kind: Ais + Tested<Fills = [u64; 3]> {
    /// Message number, application, and warning type or shape.
    fn handled(start: &[u8; SMALLEST]) -> bool;

    /// The record of a message of its size, and the bits of its fills.
    fn unpack(message: &[u8]) -> (Self, [u64; 3]);

    /// Makes the message of a good record.
    fn pack(&self, message: &mut [u8]);

    fn fill_row(&self, row: &mut [i64]) -> Result<(), Refusal>;

    /// Gives a field another value that its bits can spell.
    fn change(&mut self, field: usize, value: u64) -> Result<(), Refusal>;
}

const SMALLEST: usize = 23;
const LARGEST_MMSI: u32 = 999_999_999;

/// The bits that the first fields start at, the same in both messages.
const REPEAT: u32 = 6;
const SOURCE: u32 = 8;

#[inline]
pub fn read<M: Kind>(message: &[u8]) -> Result<M, Refusal> {
    let start = message.first_chunk().ok_or(Refusal::SIZE)?;
    need(M::handled(start), Refusal::KIND)?;
    need(message.len() == M::BYTES, Refusal::SIZE)?;
    let (record, fills) = M::unpack(message);
    record.judge(fills)?;
    Ok(record)
}

pub fn read_row<M: Kind>(message: &[u8], row: &mut [i64]) -> Result<(), Refusal> {
    read::<M>(message)?.fill_row(row)
}

/// What reading a message of either kind answers.
pub fn read_any(message: &[u8]) -> Result<(), Refusal> {
    let start: &[u8; SMALLEST] = message.first_chunk().ok_or(Refusal::SIZE)?;
    match start[0] >> 2 {
        area::MESSAGE => read::<Area>(message).map(drop),
        warning::MESSAGE => read::<Warning>(message).map(drop),
        _ => Err(Refusal::KIND),
    }
}

pub fn write<M: Kind>(buf: &mut [u8], record: &M) -> Result<(), Refusal> {
    record.judge([0; 3])?;
    record.pack(buf.get_mut(..M::BYTES).ok_or(Refusal::ROOM)?);
    Ok(())
}

pub fn correct<M: Kind>(message: &mut [u8], field: usize, value: u64) -> Result<(), Refusal> {
    let mut record = read::<M>(message)?;
    record.change(field, value)?;
    write(message, &record)
}

/// How many slots so many data bytes need.
#[inline]
pub fn slots(message: u8, bytes: usize) -> Result<u8, Refusal> {
    let limits = match message {
        area::MESSAGE => [8, 36, 64, 92, 117],
        warning::MESSAGE => [12, 40, 68, 96, 121],
        _ => return Err(Refusal::KIND),
    };
    need((1..=limits[4]).contains(&bytes), Refusal::SIZE)?;
    Ok(1 + limits.iter().filter(|limit| bytes > **limit).count() as u8)
}

/// So many bytes from a place on.
fn bytes_at<const N: usize>(message: &[u8], at: usize) -> [u8; N] {
    let mut bytes = [0; N];
    bytes.copy_from_slice(&message[at..at + N]);
    bytes
}
