//! The records of a tide telegram, and the row of numbers that they are lent as.

use super::{Entry, Point};

/// Where a tide is.
#[derive(Clone, Copy, PartialEq, Eq, Debug)]
pub enum Position {
    /// At a port, by its code, 0 to 63.
    Port(u8),
    /// At a point.
    Point(Point),
}

impl Position {
    /// The position type of a port.
    pub const PORT: u32 = 0;
    /// The position type of a point.
    pub const POINT: u32 = 1;

    /// Its entries in a row: its type, and the port, or the point's latitude and longitude.
    pub fn numbers(&self) -> Vec<u32> {
        match *self {
            Position::Port(port) => vec![Position::PORT, port.into()],
            Position::Point(point) => vec![Position::POINT, point.latitude, point.longitude],
        }
    }
}

/// A record of a row: where the tide is, and its levels.
#[derive(Clone, Copy, PartialEq, Eq, Debug)]
pub struct Record<'a> {
    /// Where it is.
    pub position: Position,
    /// Whether its levels are forecast; else they were observed.
    pub forecast: bool,
    /// The numbers of its entries.
    entries: &'a [u32],
}

impl<'a> Record<'a> {
    /// Its entries.
    pub fn entries(&self) -> impl ExactSizeIterator<Item = Entry> + 'a {
        let numbers = self.entries.chunks_exact(Entry::NUMBERS);
        numbers.map(|numbers| Entry::of_numbers([numbers[0], numbers[1], numbers[2]]))
    }

    /// How many entries of a row stand before those of its levels.
    pub(super) fn lead(&self) -> usize {
        match self.position {
            Position::Port(_) => 4,
            Position::Point(_) => 5,
        }
    }

    /// How many entries of a row it takes.
    pub fn numbers(&self) -> usize {
        self.lead() + self.entries.len()
    }

    /// How many bits it takes: its position type, 6 for a port or 43 for a point, the forecast mark, 9 for how many
    /// entries there are, and 32 for an entry.
    pub fn bits(&self) -> usize {
        let position = match self.position {
            Position::Port(_) => 6,
            Position::Point(_) => 43,
        };
        1 + position + 1 + 9 + 32 * self.entries().len()
    }
}

/// The records of a row, one after another.
#[derive(Clone, Debug)]
pub struct Records<'a> {
    row: &'a [u32],
}

impl<'a> Records<'a> {
    /// The records of a row that a reading filled, without what stands past its numbers. They end where the row does,
    /// or does not go on with a whole record.
    pub fn of_row(row: &'a [u32]) -> Records<'a> {
        Records { row }
    }
}

impl<'a> Iterator for Records<'a> {
    type Item = Record<'a>;

    fn next(&mut self) -> Option<Record<'a>> {
        let (position, rest) = match *self.row {
            [Position::PORT, port, ref rest @ ..] => (Position::Port(port as u8), rest),
            [Position::POINT, latitude, longitude, ref rest @ ..] => {
                (Position::Point(Point { latitude, longitude }), rest)
            }
            _ => return None,
        };
        let [forecast, entries, ref rest @ ..] = *rest else { return None };
        let numbers = (entries as usize).checked_mul(Entry::NUMBERS)?;
        let (entries, rest) = rest.split_at_checked(numbers)?;
        self.row = rest;
        Some(Record { position, forecast: forecast == 1, entries })
    }
}
