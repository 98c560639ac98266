//! When a notice ends.

use super::spelled;

/// When a notice ends. A notice has it as one number, [`Head::expiry`](super::Head::expiry).
#[derive(Clone, Copy, PartialEq, Eq, Debug)]
pub struct Expiry {
    /// Whether the time is in the year after the notice's.
    pub next_year: bool,
    /// 1 to 12.
    pub month: u8,
    /// 1 to 31.
    pub day: u8,
    /// 0 to 23.
    pub hour: u8,
    /// 0 to 59.
    pub minute: u8,
}

impl Expiry {
    /// The number that its 21 bits spell. A part too wide for its bits makes a number that every call refuses.
    pub fn number(&self) -> u32 {
        let parts = [(1, u8::from(self.next_year)), (4, self.month), (5, self.day), (5, self.hour), (6, self.minute)];
        spelled(&parts)
    }

    /// The time that a notice's number spells; none for 0, which means not known.
    pub fn of_number(number: u32) -> Option<Expiry> {
        (number != 0).then_some(Expiry {
            next_year: number >> 20 & 1 == 1,
            month: (number >> 16 & 15) as u8,
            day: (number >> 11 & 31) as u8,
            hour: (number >> 6 & 31) as u8,
            minute: (number & 63) as u8,
        })
    }
}
