//! An entry of a tide record.

use crate::notice::spelled;

/// A level of the tide at a time.
#[derive(Clone, Copy, PartialEq, Eq, Debug)]
pub struct Entry {
    /// When it was observed, or is due.
    pub time: Time,
    /// Centimetres, -1,023 to 1,023.
    pub height: i32,
}

impl Entry {
    /// How many entries of a row it takes: its time, its sign and its value.
    pub const NUMBERS: usize = 3;

    /// Its entries in a row. A height of nothing has the sign 1, since a level has one form.
    pub fn numbers(&self) -> [u32; Entry::NUMBERS] {
        [self.time.number(), u32::from(self.height >= 0), self.height.unsigned_abs()]
    }

    /// The entry of three numbers that a reading gave.
    pub fn of_numbers(numbers: [u32; Entry::NUMBERS]) -> Entry {
        let [time, sign, value] = numbers;
        let value = (value & 1_023) as i32;
        Entry { time: Time::of_number(time), height: if sign == 0 { -value } else { value } }
    }
}

/// A time of the tide. A telegram has it as one number.
#[derive(Clone, Copy, PartialEq, Eq, Debug)]
pub struct Time {
    /// Whether it is in the year after the telegram's.
    pub next_year: bool,
    /// 1 to 12.
    pub month: u8,
    /// 1 to 31.
    pub day: u8,
    /// 0 to 23.
    pub hour: u8,
    /// 0 to 59.
    pub minute: u8,
}

impl Time {
    /// The number that its 21 bits spell. A part too wide for its bits makes a number that every call refuses.
    pub fn number(&self) -> u32 {
        spelled(&[(1, self.next_year.into()), (4, self.month), (5, self.day), (5, self.hour), (6, self.minute)])
    }

    /// The time that a telegram's number spells.
    pub fn of_number(number: u32) -> Time {
        Time {
            next_year: number >> 20 & 1 == 1,
            month: (number >> 16 & 15) as u8,
            day: (number >> 11 & 31) as u8,
            hour: (number >> 6 & 31) as u8,
            minute: (number & 63) as u8,
        }
    }
}
