//! Message 8 with application 412/03.

use super::{Ais, Body, Time};
use crate::SHORT;

/// A weather warning to all stations: message 8 with application 412/03.
#[derive(Clone, Copy, PartialEq, Eq, Debug)]
pub struct Warning {
    /// How often the message was sent on.
    pub repeat: u8,
    /// The source's MMSI.
    pub source: u32,
    /// Thousandths of a minute east of 60° E.
    pub longitude: u32,
    /// Thousandths of a minute north of 50° S.
    pub latitude: u32,
    /// What the warning's type says.
    pub body: Body,
    /// The time that the warning names.
    pub time: Time,
    /// How many hours the warning holds, 0 to 48.
    pub hours: u8,
}

impl Warning {
    /// The longitude's field number: 23 bits.
    pub const LONGITUDE: usize = 3;
    /// The latitude's field number: 23 bits.
    pub const LATITUDE: usize = 4;
    /// The time's field number: 20 bits.
    pub const TIME: usize = 5;
    /// The hours' field number: 6 bits.
    pub const HOURS: usize = 6;
    /// The field number of a cyclone's kind: 3 bits.
    pub const CYCLONE_KIND: usize = 7;
    /// The field number of a cyclone's gale radius: 9 bits.
    pub const CYCLONE_GALE_RADIUS: usize = 8;
    /// The field number of a cyclone's storm radius: 9 bits.
    pub const CYCLONE_STORM_RADIUS: usize = 9;
    /// The field number of a cyclone's speed: 6 bits.
    pub const CYCLONE_SPEED: usize = 10;
    /// The field number of a cyclone's direction: 9 bits.
    pub const CYCLONE_DIRECTION: usize = 11;
    /// The field number of a cyclone's force: 5 bits.
    pub const CYCLONE_FORCE: usize = 12;
    /// The field number of a cyclone's pressure: 9 bits.
    pub const CYCLONE_PRESSURE: usize = 13;
    /// The field number of a gale's radius: 8 bits.
    pub const GALE_RADIUS: usize = 14;
    /// The field number of a gale's least force: 5 bits.
    pub const GALE_LEAST: usize = 15;
    /// The field number of a gale's greatest force: 5 bits.
    pub const GALE_GREATEST: usize = 16;
    /// The field number of a gale's direction: 4 bits.
    pub const GALE_DIRECTION: usize = 17;
    /// The field number of the waves' radius: 8 bits.
    pub const WAVES_RADIUS: usize = 18;
    /// The field number of the waves' height: 5 bits.
    pub const WAVES_HEIGHT: usize = 19;
    /// The field number of the waves' period: 13 bits.
    pub const WAVES_PERIOD: usize = 20;
    /// The field number of a fog's radius: 9 bits.
    pub const FOG_RADIUS: usize = 21;
    /// The field number of a fog's visibility: 8 bits.
    pub const FOG_VISIBILITY: usize = 22;
    /// The field number of a surge's radius: 9 bits.
    pub const SURGE_RADIUS: usize = 23;
    /// The field number of a surge's rise: 9 bits.
    pub const SURGE_RISE: usize = 24;
    /// The field number of a surge's tide: 10 bits.
    pub const SURGE_TIDE: usize = 25;
    /// The field number of a surge's period: 13 bits.
    pub const SURGE_PERIOD: usize = 26;

    /// The warning's entries in a row.
    #[inline]
    pub fn row(&self) -> [i64; Warning::ROW] {
        let [first, second, third, fourth, fifth, sixth, seventh] = self.body.numbers();
        [
            self.repeat.into(),
            self.source.into(),
            self.body.kind().into(),
            self.longitude.into(),
            self.latitude.into(),
            first,
            second,
            third,
            fourth,
            fifth,
            sixth,
            seventh,
            self.time.month.into(),
            self.time.day.into(),
            self.time.hour.into(),
            self.time.minute.into(),
            self.hours.into(),
        ]
    }
}

impl Ais for Warning {
    const BYTES: usize = 23;
    const ROW: usize = 10 + Body::NUMBERS;

    #[inline]
    fn of_row(row: &[i64]) -> Warning {
        let &[repeat, source, kind, longitude, latitude] = row.first_chunk().expect(SHORT);
        let body = row[5..].first_chunk().expect(SHORT);
        let &[month, day, hour, minute, hours] = row[5 + Body::NUMBERS..].first_chunk().expect(SHORT);
        Warning {
            repeat: repeat as u8,
            source: source as u32,
            longitude: longitude as u32,
            latitude: latitude as u32,
            body: Body::of_numbers(kind, body),
            time: Time { month: month as u8, day: day as u8, hour: hour as u8, minute: minute as u8 },
            hours: hours as u8,
        }
    }
}
