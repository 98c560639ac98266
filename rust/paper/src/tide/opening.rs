//! What a tide record opens with: a port or a point, the forecast mark, and how many entries follow (000, 5.4.2.3).

use super::{entry, window};
use crate::notice::area::Part;
use crate::{bits, field};
use record::Refusal;

/// The bits of an opening with a port: position type 1, port 6, forecast mark 1, count 9.
pub const PORT_BITS: u32 = 17;
/// The bits of an opening with a point, which has 43 in the place of a port's 6.
pub const POINT_BITS: u32 = 54;

/// The opening of a record.
#[derive(Clone, Copy)]
pub struct Opening {
    /// The bit that it starts at.
    pub start: usize,
    pub is_point: bool,
    /// Its bits, as one number.
    bits: u64,
    pub entries: usize,
}

impl Opening {
    /// The opening that starts at a bit. What is missing of it counts as 0; `judge` refuses it then.
    #[inline]
    pub fn at(message: &[u8], start: usize) -> Opening {
        let window = window(message, start);
        let is_point = window >> 63 == 1;
        let bits = window >> (64 - if is_point { POINT_BITS } else { PORT_BITS });
        Opening { start, is_point, bits, entries: field(bits, 0, 9) as usize }
    }

    fn width(&self) -> usize {
        (if self.is_point { POINT_BITS } else { PORT_BITS }) as usize
    }

    /// How many numbers it takes in a row.
    pub fn lead(&self) -> usize {
        if self.is_point {
            5
        } else {
            4
        }
    }

    /// How many numbers the record takes in a row.
    pub fn numbers(&self) -> usize {
        self.lead() + entry::NUMBERS * self.entries
    }

    /// The bit that the entries start at.
    pub fn entries_at(&self) -> usize {
        self.start + self.width()
    }

    /// The bit behind the record.
    pub fn end(&self) -> usize {
        self.entries_at() + entry::BITS * self.entries
    }

    /// The entries of a record that is all there.
    #[inline]
    pub fn list<'a>(&self, message: &'a [u8]) -> impl Iterator<Item = u32> + 'a {
        entry::list(message, self.entries_at(), self.entries)
    }

    /// Judges the record.
    #[inline]
    pub fn judge(&self, message: &[u8]) -> Result<(), Refusal> {
        // Where the record is all there, so is its opening.
        let good = self.end() <= 8 * message.len()
            && self.entries > 0
            && (!self.is_point || good_point(self.latitude(), self.longitude()))
            && self.list(message).fold(true, |good, entry| good & entry::good(entry));
        if good {
            Ok(())
        } else {
            Err(self.fault(message))
        }
    }

    /// What refuses a record that is not good: its first part that is bad, or that the message is too short for.
    #[cold]
    fn fault(self, message: &[u8]) -> Refusal {
        let point = [Part::Latitude, Part::Longitude].into_iter().flat_map(Part::made_of);
        let mut parts = vec![(1, 0, 1)];
        if self.is_point {
            parts.extend(point);
        } else {
            parts.push((6, 0, 63));
        }
        parts.extend([(1, 0, 1), (9, 1, 511)]);
        let entries = (0..self.entries).map(|index| self.entries_at() + entry::BITS * index);
        bits::fault(message, self.start, &parts)
            .or_else(|| entries.into_iter().find_map(|at| entry::fault(message, at)))
            .expect("a record that is refused")
    }

    fn latitude(&self) -> u32 {
        field(self.bits, 32, 21) as u32
    }

    fn longitude(&self) -> u32 {
        field(self.bits, 10, 22) as u32
    }

    /// Fills as many entries of a row as it takes.
    #[inline]
    pub fn fill(&self, row: &mut [u32]) {
        let (forecast, entries) = (field(self.bits, 9, 1) as u32, self.entries as u32);
        if self.is_point {
            row.copy_from_slice(&[1, self.latitude(), self.longitude(), forecast, entries]);
        } else {
            row.copy_from_slice(&[0, field(self.bits, 10, 6) as u32, forecast, entries]);
        }
    }
}

/// A point is the notice's.
#[inline]
pub fn good_point(latitude: u32, longitude: u32) -> bool {
    Part::Latitude.good(latitude) & Part::Longitude.good(longitude)
}
