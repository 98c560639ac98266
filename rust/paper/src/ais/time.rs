//! Times of the year.

use super::field;
use record::{Refusal, ShortTime, Time};

/// A time that stands in a message as one field.
pub trait TimeField {
    const WIDTH: u32;

    fn of_bits(bits: u64) -> Self;
    fn bits(&self) -> u64;
    /// Tests a time that starts at a bit: whether its bits can spell it, then its parts.
    fn tests(&self, at: u32, test: &mut impl FnMut(bool, Refusal));
}

impl TimeField for Time {
    const WIDTH: u32 = 20;

    #[inline]
    fn of_bits(bits: u64) -> Time {
        Time {
            month: field(bits, 16, 4) as u8,
            day: field(bits, 11, 5) as u8,
            hour: field(bits, 6, 5) as u8,
            minute: field(bits, 0, 6) as u8,
        }
    }

    #[inline]
    fn bits(&self) -> u64 {
        u64::from(self.month) << 16 | u64::from(self.day) << 11 | u64::from(self.hour) << 6 | u64::from(self.minute)
    }

    #[inline]
    fn tests(&self, at: u32, test: &mut impl FnMut(bool, Refusal)) {
        let spelled = self.day <= 31 && self.hour <= 31 && self.minute <= 63;
        test(spelled && self.month <= 12, Refusal::RANGE.at(at));
        test(self.hour <= 23, Refusal::RANGE.at(at + 9));
        test(self.minute <= 59, Refusal::RANGE.at(at + 14));
    }
}

impl TimeField for ShortTime {
    const WIDTH: u32 = 14;

    #[inline]
    fn of_bits(bits: u64) -> ShortTime {
        ShortTime { month: field(bits, 10, 4) as u8, day: field(bits, 5, 5) as u8, hour: field(bits, 0, 5) as u8 }
    }

    #[inline]
    fn bits(&self) -> u64 {
        u64::from(self.month) << 10 | u64::from(self.day) << 5 | u64::from(self.hour)
    }

    #[inline]
    fn tests(&self, at: u32, test: &mut impl FnMut(bool, Refusal)) {
        test(self.day <= 31 && self.hour <= 31 && self.month <= 12, Refusal::RANGE.at(at));
        test(self.hour <= 23, Refusal::RANGE.at(at + 9));
    }
}
