//! The AIS messages, and how many slots they need.
//!
//! A [`Warning`] is message 8 with application 412/03, a weather warning to all stations. An [`Area`] is message 6 with
//! application 412/11, an area that one station is told of.
//!
//! ```
//! use bellnewt::ais::{self, Body, Time, Warning};
//!
//! // Fog off 122.5 degrees E, 30 degrees N: 200 km around, visibility half a nautical mile, for a day.
//! let warning = Warning {
//!     repeat: 0,
//!     source: 4_122_100,
//!     longitude: 3_750_000,
//!     latitude: 4_800_000,
//!     body: Body::Fog { radius: 200, visibility: 5 },
//!     time: Time { month: 8, day: 27, hour: 6, minute: 30 },
//!     hours: 24,
//! };
//! let mut message = [0; 23];
//! ais::write(&mut message, &warning)?;
//! ais::correct::<Warning>(&mut message, Warning::HOURS, 48)?;
//! assert_eq!(ais::read::<Warning>(&message)?, Warning { hours: 48, ..warning });
//! # Ok::<(), bellnewt::Refusal>(())
//! ```

mod area;
mod warning;

use crate::call::{self, answer, Calls};
use record::Refusal;

#[doc(inline)]
pub use record::{Ais, Area, Body, Shape, ShortTime, Time, Warning};

extern "C" {
    fn bellnewt_slots(message: u8, bytes: usize, slots: *mut u8) -> u32;
}

/// The longer of the rows.
const LONGEST_ROW: usize = Area::ROW;

/// A message that the library knows: [`Warning`] or [`Area`]. No other type can be one.
pub trait Kind: Ais + Calls {
    /// The library's answer to writing this record.
    #[doc(hidden)]
    fn put(&self, buf: &mut [u8]) -> u32;
}

/// Reads a message into the first entries of a row, as in C: 17 of a warning, 19 of an area.
#[inline]
pub fn read_row<M: Kind>(message: &[u8], row: &mut [i64]) -> Result<(), Refusal> {
    call::read_row::<M>(message, row)
}

/// Reads a message.
pub fn read<M: Kind>(message: &[u8]) -> Result<M, Refusal> {
    let mut row = [0; LONGEST_ROW];
    read_row::<M>(message, &mut row)?;
    Ok(M::of_row(&row))
}

/// Writes a message into the front of a buffer. Bytes past it stay as they were.
#[inline]
pub fn write<M: Kind>(buf: &mut [u8], record: &M) -> Result<(), Refusal> {
    answer(record.put(buf))
}

/// Corrects a field of a message in place. The record has the field numbers. A time is one field.
#[inline]
pub fn correct<M: Kind>(message: &mut [u8], field: usize, value: u64) -> Result<(), Refusal> {
    call::correct::<M>(message, field, value)
}

/// Puts how many slots so many data bytes of message 6 or 8 need into `slots`, as in C.
#[inline]
pub fn count_slots(message: u8, bytes: usize, slots: &mut u8) -> Result<(), Refusal> {
    // SAFETY: see `call`.
    answer(unsafe { bellnewt_slots(message, bytes, slots) })
}

/// How many slots so many data bytes of message 6 or 8 need: 1 to 5. The data are all bytes from the application on.
pub fn slots(message: u8, bytes: usize) -> Result<u8, Refusal> {
    let mut slots = 0;
    count_slots(message, bytes, &mut slots)?;
    Ok(slots)
}
