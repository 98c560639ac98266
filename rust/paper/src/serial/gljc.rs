//! GLJC (004, 4.2.1).

use super::{narrow, need, need_address, put_u24, u24_at, Kind, ADDRESS};
use record::{Frame, Gljc, Refusal};
use std::ops::RangeInclusive;

/// The bit that the minutes start at.
const MINUTES: u32 = 80;

impl Kind for Gljc {
    const SIZES: RangeInclusive<usize> = 12..=12;

    #[inline]
    fn unpack(frame: &[u8]) -> Result<Gljc, Refusal> {
        Ok(Gljc { address: u24_at(frame, 7), minutes: frame[10] })
    }

    #[inline]
    fn judge(&self, run: &[u8]) -> Result<(), Refusal> {
        need(run.is_empty(), Refusal::SIZE)?;
        need_address(self.address, ADDRESS)
    }

    #[inline]
    fn pack(&self, frame: &mut [u8]) {
        put_u24(frame, 7, self.address);
        frame[10] = self.minutes;
    }

    #[inline]
    fn fill_row(&self, _: &[u8], row: &mut [i64]) -> Result<(), Refusal> {
        *row.first_chunk_mut().ok_or(Refusal::ROOM)? = [self.address.into(), self.minutes.into()];
        Ok(())
    }

    #[inline]
    fn change(mut self, frame: &mut [u8], field: usize, value: u64) -> Result<(), Refusal> {
        match field {
            Gljc::ADDRESS => self.address = narrow(value, 24, ADDRESS)? as u32,
            Gljc::MINUTES => self.minutes = narrow(value, 8, MINUTES)? as u8,
            _ => return Err(Refusal::FIELD),
        }
        self.replace(frame)
    }
}
