//! TXHZ (004, 4.4.4).

use super::{narrow, need, need_address, need_time, put_u24, run, u24_at, Kind, ADDRESS};
use record::{Frame, Refusal, Txhz};
use std::ops::RangeInclusive;

/// The bits that the fields start at. Each byte of the receipts is a field.
const RECEIVER: u32 = 80;
const COUNT: u32 = 104;
const RECEIPTS: u32 = 112;

/// The bit that a byte of the receipts starts at.
#[inline]
fn bit(byte: usize) -> u32 {
    RECEIPTS + 8 * byte as u32
}

/// A receipt's bytes.
const RECEIPT: usize = 4;

/// How many bytes the counted receipts have.
#[inline]
fn counted(record: &Txhz) -> usize {
    RECEIPT * usize::from(record.count)
}

/// Changes a byte of the counted receipts.
fn change_receipt(record: &Txhz, frame: &mut [u8], field: usize, value: u64) -> Result<(), Refusal> {
    let at = field.wrapping_sub(Txhz::FIRST_RECEIPT);
    need(at < counted(record), Refusal::FIELD)?;
    let mut receipts = [0; Txhz::RECEIPTS];
    receipts.copy_from_slice(run::<Txhz>(frame));
    receipts[at] = narrow(value, 8, bit(at))? as u8;
    record.judge(&receipts)?;
    frame[Txhz::RUN + at] = receipts[at];
    Ok(())
}

impl Kind for Txhz {
    const SIZES: RangeInclusive<usize> = 35..=35;

    #[inline]
    fn unpack(frame: &[u8]) -> Result<Txhz, Refusal> {
        Ok(Txhz { address: u24_at(frame, 7), receiver: u24_at(frame, 10), count: frame[13] })
    }

    #[inline]
    fn judge(&self, receipts: &[u8]) -> Result<(), Refusal> {
        need(receipts.len() == Txhz::RECEIPTS, Refusal::SIZE)?;
        need_address(self.address, ADDRESS)?;
        need_address(self.receiver, RECEIVER)?;
        need(self.count <= 5, Refusal::RANGE.at(COUNT))?;
        let (counted, fill) = receipts.split_at(counted(self));
        let mut times = counted.chunks_exact(2).enumerate();
        times.try_for_each(|(index, time)| need_time(time[0], time[1], bit(2 * index)))?;
        match fill.iter().position(|byte| *byte != 0) {
            None => Ok(()),
            Some(byte) => Err(Refusal::FILL.at(bit(counted.len() + byte))),
        }
    }

    #[inline]
    fn pack(&self, frame: &mut [u8]) {
        put_u24(frame, 7, self.address);
        put_u24(frame, 10, self.receiver);
        frame[13] = self.count;
    }

    #[inline]
    fn fill_row(&self, receipts: &[u8], row: &mut [i64]) -> Result<(), Refusal> {
        let (numbers, bytes) = row.get_mut(..Txhz::ROW).ok_or(Refusal::ROOM)?.split_at_mut(3);
        numbers.copy_from_slice(&[self.address.into(), self.receiver.into(), self.count.into()]);
        bytes.iter_mut().zip(receipts).for_each(|(entry, byte)| *entry = i64::from(*byte));
        Ok(())
    }

    fn change(mut self, frame: &mut [u8], field: usize, value: u64) -> Result<(), Refusal> {
        match field {
            Txhz::ADDRESS => self.address = narrow(value, 24, ADDRESS)? as u32,
            Txhz::RECEIVER => self.receiver = narrow(value, 24, RECEIVER)? as u32,
            Txhz::COUNT => self.count = narrow(value, 8, COUNT)? as u8,
            _ => return change_receipt(&self, frame, field, value),
        }
        self.replace(frame)
    }
}
