//! Message 6 with application 412/11 (003, tables 4 and 38 to 40; the last fill as in table 81, without which the bits
//! are not the 176 that both print).

use super::time::TimeField;
use super::{bytes_at, field, narrow, signed, within, Kind, Tested, LARGEST_MMSI, REPEAT, SMALLEST, SOURCE};
use record::{Ais, Area, Refusal, Shape, ShortTime, Time};

pub const MESSAGE: u8 = 6;
/// 412 in ten bits, 11 in six.
const APPLICATION: [u8; 2] = [0x67, 0x0B];

const LONGITUDE_WIDTH: u32 = 28;
const LATITUDE_WIDTH: u32 = 27;

/// The bits that the fields start at. Behind the position stand a circle's radius and fill, or the other corner.
const SEQUENCE: u32 = 38;
const DESTINATION: u32 = 40;
const RESENT: u32 = 70;
const HEAD_FILL: u32 = 71;
const KIND: u32 = 88;
const LONGITUDE: u32 = 94;
const LATITUDE: u32 = 122;
const RADIUS: u32 = 149;
const CIRCLE_FILL: u32 = 156;
const OTHER_LONGITUDE: u32 = 149;
const OTHER_LATITUDE: u32 = 177;
const TIME: u32 = 204;
const SECOND_TIME: u32 = 224;
const ADVICE: u32 = 238;
const FILL: u32 = 242;

impl Tested for Area {
    type Fills = [u64; 3];

    /// The fields stand in their ranges, and the fills are zero.
    #[inline]
    fn tests(&self, [head_fill, place_fill, fill]: [u64; 3], test: &mut impl FnMut(bool, Refusal)) {
        test(self.repeat <= 3, Refusal::RANGE.at(REPEAT));
        test(self.source <= LARGEST_MMSI, Refusal::RANGE.at(SOURCE));
        test(self.sequence <= 3, Refusal::RANGE.at(SEQUENCE));
        test(self.destination <= LARGEST_MMSI, Refusal::RANGE.at(DESTINATION));
        test(self.resent <= 1, Refusal::RANGE.at(RESENT));
        test(head_fill == 0, Refusal::FILL.at(HEAD_FILL));
        test((1..=14).contains(&self.kind), Refusal::RANGE.at(KIND));
        test(good_longitude(self.longitude), Refusal::RANGE.at(LONGITUDE));
        test(good_latitude(self.latitude), Refusal::RANGE.at(LATITUDE));
        match self.shape {
            Shape::Circle { radius } => {
                test(radius < 1 << 7, Refusal::RANGE.at(RADIUS));
                test(place_fill == 0, Refusal::FILL.at(CIRCLE_FILL));
            }
            Shape::Rectangle { longitude, latitude } => {
                test(good_longitude(longitude), Refusal::RANGE.at(OTHER_LONGITUDE));
                test(good_latitude(latitude), Refusal::RANGE.at(OTHER_LATITUDE));
            }
        }
        self.time.tests(TIME, test);
        self.second_time.tests(SECOND_TIME, test);
        test((1..=6).contains(&self.advice), Refusal::RANGE.at(ADVICE));
        test(fill == 0, Refusal::FILL.at(FILL));
    }
}

impl Kind for Area {
    #[inline]
    fn handled(start: &[u8; SMALLEST]) -> bool {
        start[0] >> 2 == MESSAGE && start[9..11] == APPLICATION && (1..=2).contains(&(start[11] >> 2 & 3))
    }

    /// The sixteen bytes from 11 on hold kind, shape, the two halves of the place, and twelve bits of the time; the last
    /// eight, which overlap them, all from the time on.
    #[inline]
    fn unpack(message: &[u8]) -> (Area, [u64; 3]) {
        let head = u64::from_be_bytes(bytes_at(message, 1));
        let place = u128::from_be_bytes(bytes_at(message, 11)) >> 12;
        let end = u64::from_be_bytes(bytes_at(message, 23));
        let second = (place as u64) & ((1 << 55) - 1);
        let first = (place >> 55) as u64;
        let (shape, place_fill) = match message[11] >> 2 & 3 {
            1 => (Shape::Circle { radius: field(second, 48, 7) as u8 }, field(second, 0, 48)),
            _ => (Shape::Rectangle { longitude: longitude(second), latitude: latitude(second) }, 0),
        };
        let area = Area {
            repeat: message[0] & 3,
            source: field(head, 34, 30) as u32,
            sequence: field(head, 32, 2) as u8,
            destination: field(head, 2, 30) as u32,
            resent: field(head, 1, 1) as u8,
            kind: message[11] >> 4,
            longitude: longitude(first),
            latitude: latitude(first),
            shape,
            time: Time::of_bits(field(end, 24, Time::WIDTH)),
            second_time: ShortTime::of_bits(field(end, 10, ShortTime::WIDTH)),
            advice: field(end, 6, 4) as u8,
        };
        (area, [head & 1, place_fill, field(end, 0, 6)])
    }

    #[inline]
    fn pack(&self, message: &mut [u8]) {
        let head = u64::from(self.source) << 34
            | u64::from(self.sequence) << 32
            | u64::from(self.destination) << 2
            | u64::from(self.resent) << 1;
        let place = u128::from(position(self.longitude, self.latitude)) << 55 | u128::from(shape_bits(&self.shape));
        let start = u128::from(self.kind) << 124 | u128::from(self.shape.kind()) << 122 | place << 12;
        let end =
            (place as u64) << 44 | self.time.bits() << 24 | self.second_time.bits() << 10 | u64::from(self.advice) << 6;
        message[0] = MESSAGE << 2 | self.repeat;
        message[1..9].copy_from_slice(&head.to_be_bytes());
        message[9..11].copy_from_slice(&APPLICATION);
        message[11..27].copy_from_slice(&start.to_be_bytes());
        message[23..].copy_from_slice(&end.to_be_bytes());
    }

    #[inline]
    fn fill_row(&self, row: &mut [i64]) -> Result<(), Refusal> {
        *row.first_chunk_mut().ok_or(Refusal::ROOM)? = self.row();
        Ok(())
    }

    fn change(&mut self, field: usize, value: u64) -> Result<(), Refusal> {
        let to_longitude = |at| Ok(signed(narrow(value, LONGITUDE_WIDTH, at)?, LONGITUDE_WIDTH));
        let to_latitude = |at| Ok(signed(narrow(value, LATITUDE_WIDTH, at)?, LATITUDE_WIDTH));
        match (field, &mut self.shape) {
            (Area::REPEAT, _) => self.repeat = narrow(value, 2, REPEAT)? as u8,
            (Area::SOURCE, _) => self.source = narrow(value, 30, SOURCE)? as u32,
            (Area::SEQUENCE, _) => self.sequence = narrow(value, 2, SEQUENCE)? as u8,
            (Area::DESTINATION, _) => self.destination = narrow(value, 30, DESTINATION)? as u32,
            (Area::RESENT, _) => self.resent = narrow(value, 1, RESENT)? as u8,
            (Area::KIND, _) => self.kind = narrow(value, 4, KIND)? as u8,
            (Area::LONGITUDE, _) => self.longitude = to_longitude(LONGITUDE)?,
            (Area::LATITUDE, _) => self.latitude = to_latitude(LATITUDE)?,
            (Area::TIME, _) => self.time = Time::of_bits(narrow(value, Time::WIDTH, TIME)?),
            (Area::SECOND_TIME, _) => {
                self.second_time = ShortTime::of_bits(narrow(value, ShortTime::WIDTH, SECOND_TIME)?);
            }
            (Area::ADVICE, _) => self.advice = narrow(value, 4, ADVICE)? as u8,
            (Area::CIRCLE_RADIUS, Shape::Circle { radius }) => *radius = narrow(value, 7, RADIUS)? as u8,
            (Area::RECTANGLE_LONGITUDE, Shape::Rectangle { longitude, .. }) => {
                *longitude = to_longitude(OTHER_LONGITUDE)?;
            }
            (Area::RECTANGLE_LATITUDE, Shape::Rectangle { latitude, .. }) => *latitude = to_latitude(OTHER_LATITUDE)?,
            _ => return Err(Refusal::FIELD),
        }
        Ok(())
    }
}

/// The 55 bits after the position.
#[inline]
fn shape_bits(shape: &Shape) -> u64 {
    match *shape {
        Shape::Circle { radius } => u64::from(radius) << 48,
        Shape::Rectangle { longitude, latitude } => position(longitude, latitude),
    }
}

/// The longitude in the 55 bits of a position.
#[inline]
fn longitude(position: u64) -> i32 {
    signed(field(position, LATITUDE_WIDTH, LONGITUDE_WIDTH), LONGITUDE_WIDTH)
}

#[inline]
fn latitude(position: u64) -> i32 {
    signed(field(position, 0, LATITUDE_WIDTH), LATITUDE_WIDTH)
}

/// The 55 bits of a longitude and a latitude.
#[inline]
fn position(longitude: i32, latitude: i32) -> u64 {
    field(longitude as u64, 0, LONGITUDE_WIDTH) << LATITUDE_WIDTH | field(latitude as u64, 0, LATITUDE_WIDTH)
}

#[inline]
fn good_longitude(longitude: i32) -> bool {
    within(longitude, 108_000_000, 108_600_000)
}

#[inline]
fn good_latitude(latitude: i32) -> bool {
    within(latitude, 54_000_000, 54_600_000)
}
