//! The distress report.

/// A distress report.
#[derive(Clone, Copy, PartialEq, Eq, Debug, Default)]
pub struct Report {
    /// The ship's MMSI, 0 to 999,999,999.
    pub mmsi: u32,
    /// Thousandths of a minute, east positive; 10,860,000 for none.
    pub longitude: i32,
    /// Thousandths of a minute, north positive; 5,460,000 for none.
    pub latitude: i32,
    /// The day of the month; 0 for none.
    pub day: u8,
    /// The hour; 24 for none.
    pub hour: u8,
    /// The minute; 60 for none.
    pub minute: u8,
    /// Knots, 0 to 126.
    pub speed: u8,
    /// Degrees; 360 for none.
    pub course: u16,
    /// The kind of distress, 1 to 9; 0 for none.
    pub kind: u8,
}

impl Report {
    /// A report's bytes.
    pub const BYTES: usize = 17;
    /// How many entries a report takes in a row.
    pub const ROW: usize = 9;

    /// The MMSI's field number: 32 bits.
    pub const MMSI: usize = 1;
    /// The longitude's field number: 25 bits, two's complement.
    pub const LONGITUDE: usize = 2;
    /// The latitude's field number: 24 bits, two's complement.
    pub const LATITUDE: usize = 3;
    /// The day's field number: 5 bits.
    pub const DAY: usize = 4;
    /// The hour's field number: 5 bits.
    pub const HOUR: usize = 5;
    /// The minute's field number: 6 bits.
    pub const MINUTE: usize = 6;
    /// The speed's field number: 7 bits.
    pub const SPEED: usize = 7;
    /// The course's field number: 9 bits.
    pub const COURSE: usize = 8;
    /// The kind's field number: 4 bits.
    pub const KIND: usize = 9;

    /// The report's entries in a row, in the order of the field numbers.
    #[inline]
    pub fn row(&self) -> [i64; Report::ROW] {
        [
            self.mmsi.into(),
            self.longitude.into(),
            self.latitude.into(),
            self.day.into(),
            self.hour.into(),
            self.minute.into(),
            self.speed.into(),
            self.course.into(),
            self.kind.into(),
        ]
    }

    /// The report of a row. An entry too wide for its field's type keeps its low bits.
    #[inline]
    pub fn of_row(row: &[i64; Report::ROW]) -> Report {
        let &[mmsi, longitude, latitude, day, hour, minute, speed, course, kind] = row;
        Report {
            mmsi: mmsi as u32,
            longitude: longitude as i32,
            latitude: latitude as i32,
            day: day as u8,
            hour: hour as u8,
            minute: minute as u8,
            speed: speed as u8,
            course: course as u16,
            kind: kind as u8,
        }
    }
}
