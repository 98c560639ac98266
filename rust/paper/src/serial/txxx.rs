//! TXXX (004, 4.4.3).

use super::{narrow, need_bytes, need_fill, put_u24, u16_at, u24_at, Kind, ADDRESS, LARGEST_ADDRESS, LONGEST};
use crate::Tested;
use record::{Frame, Refusal, Txxx};
use std::ops::RangeInclusive;

/// The bits that the fields start at. The mark stands last but for the checksum.
const CLASS: u32 = 80;
const SENDER: u32 = 88;
const HOUR: u32 = 112;
const MINUTE: u32 = 120;
const BITS: u32 = 128;
const CONTENT: u32 = 144;

/// The bit that the mark starts at.
fn mark_at(frame: &[u8]) -> u32 {
    8 * (frame.len() as u32 - 2)
}

impl Tested for Txxx {
    type Fills = ();

    /// The numbers before the content are in their ranges.
    #[inline]
    fn tests(&self, (): (), test: &mut impl FnMut(bool, Refusal)) {
        let mut range = |good: bool, at: u32| test(good, Refusal::RANGE.at(at));
        range(self.address <= LARGEST_ADDRESS, ADDRESS);
        range(self.sender <= LARGEST_ADDRESS, SENDER);
        range(self.hour <= 23, HOUR);
        range(self.minute <= 59, MINUTE);
        range(self.bits <= LONGEST, BITS);
    }
}

impl Kind for Txxx {
    const SIZES: RangeInclusive<usize> = 20..=230;

    #[inline]
    fn unpack(frame: &[u8]) -> Result<Txxx, Refusal> {
        Ok(Txxx {
            address: u24_at(frame, 7),
            class: frame[10],
            sender: u24_at(frame, 11),
            hour: frame[14],
            minute: frame[15],
            bits: u16_at(frame, 16),
            mark: frame[frame.len() - 2],
        })
    }

    fn judge(&self, content: &[u8]) -> Result<(), Refusal> {
        Tested::judge(self, ())?;
        need_bytes(content, self.bits, BITS)?;
        need_fill(content, self.bits, CONTENT)
    }

    #[inline]
    fn pack(&self, frame: &mut [u8]) {
        put_u24(frame, 7, self.address);
        frame[10] = self.class;
        put_u24(frame, 11, self.sender);
        frame[14..16].copy_from_slice(&[self.hour, self.minute]);
        frame[16..18].copy_from_slice(&self.bits.to_be_bytes());
        frame[frame.len() - 2] = self.mark;
    }

    #[inline]
    fn fill_row(&self, content: &[u8], row: &mut [i64]) -> Result<(), Refusal> {
        *row.first_chunk_mut().ok_or(Refusal::ROOM)? = [
            self.address.into(),
            self.class.into(),
            self.sender.into(),
            self.hour.into(),
            self.minute.into(),
            self.bits.into(),
            self.mark.into(),
            Txxx::RUN as i64,
            content.len() as i64,
        ];
        Ok(())
    }

    fn change(mut self, frame: &mut [u8], field: usize, value: u64) -> Result<(), Refusal> {
        match field {
            Txxx::ADDRESS => self.address = narrow(value, 24, ADDRESS)? as u32,
            Txxx::CLASS => self.class = narrow(value, 8, CLASS)? as u8,
            Txxx::SENDER => self.sender = narrow(value, 24, SENDER)? as u32,
            Txxx::HOUR => self.hour = narrow(value, 8, HOUR)? as u8,
            Txxx::MINUTE => self.minute = narrow(value, 8, MINUTE)? as u8,
            Txxx::MARK => self.mark = narrow(value, 8, mark_at(frame))? as u8,
            _ => return Err(Refusal::FIELD),
        }
        self.replace(frame)
    }
}
