//! The areas of a notice, and the row of numbers that they are lent as: one area after another, its kind first.

use super::spelled;

/// An area of a notice.
#[derive(Clone, PartialEq, Eq, Debug)]
pub enum Area {
    /// A sea area that has a code.
    Sea {
        /// Its code.
        code: u8,
    },
    /// Single points: 1 to 15.
    Points(Vec<Point>),
    /// A line of 2 to 15 points.
    Line(Vec<Point>),
    /// A circle.
    Circle {
        /// Its centre.
        centre: Point,
        /// 0 to 1,023 of its unit.
        radius: u16,
        /// 0 metres, 1 kilometres, 2 nautical miles.
        unit: u8,
    },
    /// A polygon of 3 to 15 points.
    Polygon(Vec<Point>),
}

/// A point, by the numbers that its bits spell. [`Point::new`] makes one of two angles.
#[derive(Clone, Copy, PartialEq, Eq, Debug)]
pub struct Point {
    /// The number of its 21 bits: south 1, degrees 7, minutes 6, hundredths 7.
    pub latitude: u32,
    /// The number of its 22 bits: west 1, degrees 8, minutes 6, hundredths 7.
    pub longitude: u32,
}

/// A latitude or a longitude in its parts. 0 degrees south and 0 degrees north are different angles.
#[derive(Clone, Copy, PartialEq, Eq, Debug)]
pub struct Angle {
    /// Whether it is south or west.
    pub negative: bool,
    /// 0 to 90 of a latitude, 0 to 180 of a longitude.
    pub degrees: u8,
    /// 0 to 60.
    pub minutes: u8,
    /// Hundredths of a minute, 0 to 99.
    pub hundredths: u8,
}

/// How many bits the degrees have.
const LATITUDE_DEGREES: u32 = 7;
const LONGITUDE_DEGREES: u32 = 8;

impl Point {
    /// The point of two angles. A part too wide for its bits makes a number that every call refuses.
    pub fn new(latitude: Angle, longitude: Angle) -> Point {
        Point { latitude: latitude.number(LATITUDE_DEGREES), longitude: longitude.number(LONGITUDE_DEGREES) }
    }

    /// The latitude in its parts.
    pub fn latitude_parts(&self) -> Angle {
        Angle::of_number(self.latitude, LATITUDE_DEGREES)
    }

    /// The longitude in its parts.
    pub fn longitude_parts(&self) -> Angle {
        Angle::of_number(self.longitude, LONGITUDE_DEGREES)
    }
}

impl Angle {
    fn number(&self, degrees_width: u32) -> u32 {
        let negative = u8::from(self.negative);
        spelled(&[(1, negative), (degrees_width, self.degrees), (6, self.minutes), (7, self.hundredths)])
    }

    fn of_number(number: u32, degrees_width: u32) -> Angle {
        Angle {
            negative: number >> (13 + degrees_width) & 1 == 1,
            degrees: (number >> 13 & ((1 << degrees_width) - 1)) as u8,
            minutes: (number >> 7 & 63) as u8,
            hundredths: (number & 127) as u8,
        }
    }
}

impl Area {
    /// The kind of a sea area.
    pub const SEA: u32 = 0;
    /// The kind of single points.
    pub const POINTS: u32 = 1;
    /// The kind of a line.
    pub const LINE: u32 = 2;
    /// The kind of a circle.
    pub const CIRCLE: u32 = 3;
    /// The kind of a polygon.
    pub const POLYGON: u32 = 4;

    /// The area's points. A circle's is its centre; a sea area has none.
    pub fn points(&self) -> &[Point] {
        match self {
            Area::Sea { .. } => &[],
            Area::Points(points) | Area::Line(points) | Area::Polygon(points) => points,
            Area::Circle { centre, .. } => std::slice::from_ref(centre),
        }
    }

    /// The number of the area's kind.
    pub fn kind(&self) -> u32 {
        match self {
            Area::Sea { .. } => Area::SEA,
            Area::Points(_) => Area::POINTS,
            Area::Line(_) => Area::LINE,
            Area::Circle { .. } => Area::CIRCLE,
            Area::Polygon(_) => Area::POLYGON,
        }
    }

    /// How many bits the area takes: 3 for its kind, 43 for a point, and those of its other numbers.
    pub fn bits(&self) -> usize {
        let others = match self {
            Area::Sea { .. } => 8,
            Area::Points(_) | Area::Line(_) | Area::Polygon(_) => 4,
            Area::Circle { .. } => 10 + 2,
        };
        3 + others + 43 * self.points().len()
    }

    /// The area's entries in a row.
    pub fn entries(&self) -> Vec<u32> {
        let points = self.points();
        let numbers = points.iter().flat_map(|point| [point.latitude, point.longitude]);
        let (before, after) = match self {
            Area::Sea { code } => (vec![u32::from(*code)], vec![]),
            Area::Points(_) | Area::Line(_) | Area::Polygon(_) => {
                (vec![u32::try_from(points.len()).unwrap_or(u32::MAX)], vec![])
            }
            Area::Circle { radius, unit, .. } => (vec![], vec![u32::from(*radius), u32::from(*unit)]),
        };
        [self.kind()].into_iter().chain(before).chain(numbers).chain(after).collect()
    }

    /// The areas of a row that a reading filled.
    ///
    /// # Panics
    ///
    /// If the row is not one that a reading can fill.
    pub fn list(row: &[u32]) -> Vec<Area> {
        let mut entries = row.iter().copied();
        let mut areas = Vec::new();
        while let Some(kind) = entries.next() {
            areas.push(Area::next(kind, &mut entries));
        }
        areas
    }

    /// The area of a kind whose other entries come next.
    fn next(kind: u32, entries: &mut impl Iterator<Item = u32>) -> Area {
        let mut entry = || entries.next().expect("a reading fills all entries of an area");
        match kind {
            Area::SEA => Area::Sea { code: entry() as u8 },
            Area::CIRCLE => Area::Circle { centre: point(&mut entry), radius: entry() as u16, unit: entry() as u8 },
            _ => {
                let points = (0..entry()).map(|_| point(&mut entry)).collect();
                match kind {
                    Area::POINTS => Area::Points(points),
                    Area::LINE => Area::Line(points),
                    Area::POLYGON => Area::Polygon(points),
                    _ => panic!("a row has one of the five kinds"),
                }
            }
        }
    }
}

fn point(entry: &mut impl FnMut() -> u32) -> Point {
    Point { latitude: entry(), longitude: entry() }
}
