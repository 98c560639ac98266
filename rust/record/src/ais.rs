//! The AIS messages.

mod area;
mod body;
mod warning;

pub use area::{Area, Shape};
pub use body::Body;
pub use warning::Warning;

use std::fmt::Debug;

/// One of the two messages: [`Warning`] or [`Area`].
pub trait Ais: Copy + PartialEq + Debug {
    /// A message's bytes.
    const BYTES: usize;
    /// How many entries a message takes in a row.
    const ROW: usize;

    /// The repeat's field number, the same in both messages: 2 bits. The others are with their struct.
    const REPEAT: usize = 1;
    /// The source's field number, the same in both messages: 30 bits.
    const SOURCE: usize = 2;

    /// The record of a row. An entry too wide for its field's type keeps its low bits.
    ///
    /// # Panics
    ///
    /// If the row has fewer than `ROW` entries, or another warning type or shape than there are.
    fn of_row(row: &[i64]) -> Self;
}

/// A time of the year. Parts that are not needed are 0.
///
/// As one field it has 20 bits: month 4, day 5, hour 5, minute 6.
#[derive(Clone, Copy, PartialEq, Eq, Debug)]
pub struct Time {
    /// 0 to 12.
    pub month: u8,
    /// 0 to 31.
    pub day: u8,
    /// 0 to 23.
    pub hour: u8,
    /// 0 to 59.
    pub minute: u8,
}

/// A time without its minute.
///
/// As one field it has 14 bits: month 4, day 5, hour 5.
#[derive(Clone, Copy, PartialEq, Eq, Debug)]
pub struct ShortTime {
    /// 0 to 12.
    pub month: u8,
    /// 0 to 31.
    pub day: u8,
    /// 0 to 23.
    pub hour: u8,
}
