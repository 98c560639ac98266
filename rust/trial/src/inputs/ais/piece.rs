//! The pieces that a layout has, and those that both messages share.

use crate::inputs::field::{field, Field};
use record::{Ais, Warning};

/// A piece of a message: its field, and what it is there.
pub struct Piece {
    pub field: Field,
    pub role: Role,
}

pub enum Role {
    /// The message number, or a part of the application.
    Code,
    /// The warning type or the shape: a code that stands in a row.
    Variant,
    Fill,
    /// A number of the record that no correction names: a part of a time, or what the layout has not.
    Part,
    /// A number of the record, and the number that a correction names it by.
    Own(usize),
}

impl AsRef<Field> for Piece {
    fn as_ref(&self) -> &Field {
        &self.field
    }
}

impl Piece {
    pub const fn code(width: u32, value: &'static [i64; 1]) -> Piece {
        Piece { field: field(width, value[0], value[0], value), role: Role::Code }
    }

    pub const fn variant(width: u32, value: &'static [i64; 1]) -> Piece {
        Piece { field: field(width, value[0], value[0], value), role: Role::Variant }
    }

    pub const fn fill(width: u32) -> Piece {
        Piece { field: field(width, 0, 0, &[0]), role: Role::Fill }
    }

    pub const fn part(width: u32, most: i64) -> Piece {
        Piece { field: field(width, 0, most, &[0]), role: Role::Part }
    }

    pub const fn own(number: usize, field: Field) -> Piece {
        Piece { field, role: Role::Own(number) }
    }

    /// A number that every value of its bits is good for. The notes are the ends of the range that 003 prints.
    pub const fn carried(number: usize, width: u32, notes: &'static [i64]) -> Piece {
        Piece::own(number, field(width, 0, (1 << width) - 1, notes))
    }

    pub fn is_code(&self) -> bool {
        matches!(self.role, Role::Code | Role::Variant)
    }

    pub fn is_fill(&self) -> bool {
        matches!(self.role, Role::Fill)
    }

    /// A number of the record that some value of its bits is bad for.
    pub fn has_range(&self) -> bool {
        matches!(self.role, Role::Part | Role::Own(_)) && !self.field.is_full()
    }
}

pub const REPEAT: Piece = Piece::carried(Warning::REPEAT, 2, &[0]);
pub const MMSI: Field = field(30, 0, 999_999_999, &[0]);
pub const SOURCE: Piece = Piece::own(Warning::SOURCE, MMSI);
pub const COUNTRY: Piece = Piece::code(10, &[412]);
pub const MONTH: Piece = Piece::part(4, 12);
pub const DAY: Piece = Piece::part(5, 31);
pub const HOUR: Piece = Piece::part(5, 23);
pub const MINUTE: Piece = Piece::part(6, 59);
pub const ABSENT: Piece = Piece::part(0, 0);

/// A time as one field. The notes end or pass the range of each part; numbers between them have good and bad parts.
pub const TIME: Field = field(
    20,
    0,
    time(12, 31, 23, 59),
    &[
        time(0, 0, 0, 59),
        time(0, 0, 0, 60),
        time(0, 0, 23, 0),
        time(0, 0, 24, 0),
        time(0, 31, 0, 0),
        time(12, 0, 0, 0),
        time(13, 0, 0, 0),
        time(15, 31, 23, 59),
    ],
);
pub const SECOND_TIME: Field = field(
    14,
    0,
    short_time(12, 31, 23),
    &[
        short_time(0, 0, 23),
        short_time(0, 0, 24),
        short_time(0, 31, 0),
        short_time(12, 0, 0),
        short_time(13, 0, 0),
        short_time(15, 31, 23),
    ],
);

const fn time(month: i64, day: i64, hour: i64, minute: i64) -> i64 {
    short_time(month, day, hour) << 6 | minute
}

const fn short_time(month: i64, day: i64, hour: i64) -> i64 {
    month << 10 | day << 5 | hour
}
