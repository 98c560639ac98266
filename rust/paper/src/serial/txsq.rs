//! TXSQ (004, 4.2.3).

use super::{narrow, need, need_address, need_bytes, need_fill, put_u24, u16_at, u24_at, Kind, ADDRESS, LONGEST};
use record::{Frame, Refusal, Txsq};
use std::ops::RangeInclusive;

/// The class's first four bits: 010, key 0.
const MESSAGE: u8 = 0b0100;

/// The bits that the fields behind these start at.
const CATEGORY: u32 = 84;
const MODE: u32 = 86;
const PASSWORD: u32 = 87;
const RECEIVER: u32 = 88;
const BITS: u32 = 112;
const ANSWER: u32 = 128;
const CONTENT: u32 = 136;

impl Kind for Txsq {
    const SIZES: RangeInclusive<usize> = 18..=228;

    /// The class's first bits come after the own address, so its refusal goes before theirs.
    #[inline]
    fn unpack(frame: &[u8]) -> Result<Txsq, Refusal> {
        let (address, class) = (u24_at(frame, 7), frame[10]);
        need_address(address, ADDRESS)?;
        need(class >> 4 == MESSAGE, Refusal::KIND)?;
        Ok(Txsq {
            address,
            category: class >> 2 & 3,
            mode: class >> 1 & 1,
            password: class & 1,
            receiver: u24_at(frame, 11),
            bits: u16_at(frame, 14),
            answer: frame[16],
        })
    }

    #[inline]
    fn judge(&self, content: &[u8]) -> Result<(), Refusal> {
        let most = match (self.category, self.password) {
            (_, 1) => 83,
            (0, _) => 188,
            _ => LONGEST,
        };
        let is_whole = self.mode == 1 || self.bits.is_multiple_of(8);
        need_address(self.address, ADDRESS)?;
        need(self.category <= 1, Refusal::RANGE.at(CATEGORY))?;
        need(self.mode <= 1, Refusal::RANGE.at(MODE))?;
        need(self.password == 0 || self.password == 1 && self.category == 1, Refusal::RANGE.at(PASSWORD))?;
        need_address(self.receiver, RECEIVER)?;
        need(self.bits <= most && is_whole, Refusal::RANGE.at(BITS))?;
        need_bytes(content, self.bits, BITS)?;
        need(self.password == 1 || self.answer == 0, Refusal::RANGE.at(ANSWER))?;
        need_fill(content, self.bits, CONTENT)
    }

    #[inline]
    fn pack(&self, frame: &mut [u8]) {
        put_u24(frame, 7, self.address);
        frame[10] = MESSAGE << 4 | self.category << 2 | self.mode << 1 | self.password;
        put_u24(frame, 11, self.receiver);
        frame[14..16].copy_from_slice(&self.bits.to_be_bytes());
        frame[16] = self.answer;
    }

    #[inline]
    fn fill_row(&self, content: &[u8], row: &mut [i64]) -> Result<(), Refusal> {
        *row.first_chunk_mut().ok_or(Refusal::ROOM)? = [
            self.address.into(),
            self.category.into(),
            self.mode.into(),
            self.password.into(),
            self.receiver.into(),
            self.bits.into(),
            self.answer.into(),
            Txsq::RUN as i64,
            content.len() as i64,
        ];
        Ok(())
    }

    fn change(mut self, frame: &mut [u8], field: usize, value: u64) -> Result<(), Refusal> {
        match field {
            Txsq::ADDRESS => self.address = narrow(value, 24, ADDRESS)? as u32,
            Txsq::CATEGORY => self.category = narrow(value, 2, CATEGORY)? as u8,
            Txsq::MODE => self.mode = narrow(value, 1, MODE)? as u8,
            Txsq::PASSWORD => self.password = narrow(value, 1, PASSWORD)? as u8,
            Txsq::RECEIVER => self.receiver = narrow(value, 24, RECEIVER)? as u32,
            Txsq::ANSWER => self.answer = narrow(value, 8, ANSWER)? as u8,
            _ => return Err(Refusal::FIELD),
        }
        self.replace(frame)
    }
}
