//! Message 6 with application 412/11.

use super::{Ais, ShortTime, Time};
use crate::SHORT;

/// An area that one station is told of: message 6 with application 412/11.
///
/// Positions are ten-thousandths of a minute, east and north positive. Longitude 108,600,000 and latitude 54,600,000
/// mean none.
#[derive(Clone, Copy, PartialEq, Eq, Debug)]
pub struct Area {
    /// How often the message was sent on.
    pub repeat: u8,
    /// The source's MMSI.
    pub source: u32,
    /// The sequence number, 0 to 3.
    pub sequence: u8,
    /// The receiver's MMSI.
    pub destination: u32,
    /// 1 for a message that was sent before.
    pub resent: u8,
    /// What the area is for, 1 to 14.
    pub kind: u8,
    /// Of a circle's centre, or of a rectangle's first corner.
    pub longitude: i32,
    /// Of a circle's centre, or of a rectangle's first corner.
    pub latitude: i32,
    /// A circle or a rectangle.
    pub shape: Shape,
    /// The first time.
    pub time: Time,
    /// The second time, which has no minute.
    pub second_time: ShortTime,
    /// What ships are asked to do, 1 to 6.
    pub advice: u8,
}

/// What an area spans from its position.
#[derive(Clone, Copy, PartialEq, Eq, Debug)]
pub enum Shape {
    /// A circle around it.
    Circle {
        /// Tenths of a nautical mile, 0 to 127.
        radius: u8,
    },
    /// A rectangle from it to another corner.
    Rectangle {
        /// The other corner's longitude.
        longitude: i32,
        /// The other corner's latitude.
        latitude: i32,
    },
}

impl Area {
    /// The sequence number's field number: 2 bits.
    pub const SEQUENCE: usize = 3;
    /// The destination's field number: 30 bits.
    pub const DESTINATION: usize = 4;
    /// The resent mark's field number: 1 bit.
    pub const RESENT: usize = 5;
    /// The kind's field number: 4 bits.
    pub const KIND: usize = 6;
    /// The longitude's field number: 28 bits, two's complement.
    pub const LONGITUDE: usize = 7;
    /// The latitude's field number: 27 bits, two's complement.
    pub const LATITUDE: usize = 8;
    /// The first time's field number: 20 bits.
    pub const TIME: usize = 9;
    /// The second time's field number: 14 bits.
    pub const SECOND_TIME: usize = 10;
    /// The advice's field number: 4 bits.
    pub const ADVICE: usize = 11;
    /// The radius' field number: 7 bits, of a circle alone.
    pub const CIRCLE_RADIUS: usize = 12;
    /// The field number of the other corner's longitude: 28 bits, two's complement, of a rectangle alone.
    pub const RECTANGLE_LONGITUDE: usize = 13;
    /// The field number of the other corner's latitude: 27 bits, two's complement, of a rectangle alone.
    pub const RECTANGLE_LATITUDE: usize = 14;

    /// The area's entries in a row.
    #[inline]
    pub fn row(&self) -> [i64; Area::ROW] {
        let [first, second] = self.shape.numbers();
        [
            self.repeat.into(),
            self.source.into(),
            self.sequence.into(),
            self.destination.into(),
            self.resent.into(),
            self.kind.into(),
            self.shape.kind().into(),
            self.longitude.into(),
            self.latitude.into(),
            first,
            second,
            self.time.month.into(),
            self.time.day.into(),
            self.time.hour.into(),
            self.time.minute.into(),
            self.second_time.month.into(),
            self.second_time.day.into(),
            self.second_time.hour.into(),
            self.advice.into(),
        ]
    }
}

impl Ais for Area {
    const BYTES: usize = 31;
    const ROW: usize = 19;

    #[inline]
    fn of_row(row: &[i64]) -> Area {
        let &[repeat, source, sequence, destination, resent, kind, shape, longitude, latitude, first, second] =
            row.first_chunk().expect(SHORT);
        let &[month, day, hour, minute, second_month, second_day, second_hour, advice] =
            row[11..].first_chunk().expect(SHORT);
        Area {
            repeat: repeat as u8,
            source: source as u32,
            sequence: sequence as u8,
            destination: destination as u32,
            resent: resent as u8,
            kind: kind as u8,
            longitude: longitude as i32,
            latitude: latitude as i32,
            shape: Shape::of_numbers(shape, [first, second]),
            time: Time { month: month as u8, day: day as u8, hour: hour as u8, minute: minute as u8 },
            second_time: ShortTime { month: second_month as u8, day: second_day as u8, hour: second_hour as u8 },
            advice: advice as u8,
        }
    }
}

impl Shape {
    /// The shape's number: 1 for a circle, 2 for a rectangle.
    #[inline]
    pub fn kind(&self) -> u8 {
        match self {
            Shape::Circle { .. } => 1,
            Shape::Rectangle { .. } => 2,
        }
    }

    #[inline]
    fn numbers(&self) -> [i64; 2] {
        match *self {
            Shape::Circle { radius } => [radius.into(), 0],
            Shape::Rectangle { longitude, latitude } => [longitude.into(), latitude.into()],
        }
    }

    #[inline]
    fn of_numbers(kind: i64, numbers: [i64; 2]) -> Shape {
        match (kind, numbers) {
            (1, [radius, _]) => Shape::Circle { radius: radius as u8 },
            (2, [longitude, latitude]) => Shape::Rectangle { longitude: longitude as i32, latitude: latitude as i32 },
            _ => panic!("a row has one of the two shapes"),
        }
    }
}
