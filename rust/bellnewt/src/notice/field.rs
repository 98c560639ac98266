//! The fields of a notice that can be corrected.

use super::Area;

/// A field of a notice that can be corrected.
///
/// Areas, and the points of an area, are counted from 0. A circle's centre is its point 0.
#[derive(Clone, Copy, PartialEq, Eq, Debug)]
pub enum Field {
    /// Who gives the notice, 1 to 21.
    Source,
    /// Who broadcasts it, 1 to 3.
    Station,
    /// The serial number, 1 to 9,999.
    Serial,
    /// The last two digits of the year.
    Year,
    /// The type, 1 to 8.
    Kind,
    /// The subtype, which has to fit the type.
    Subtype,
    /// When it ends. The value is [`Expiry::number`](super::Expiry::number), or 0 for not known.
    Expiry,
    /// A sea area's code.
    Code {
        /// Which area.
        area: usize,
    },
    /// A point's latitude. The value is that of [`Point::latitude`](super::Point::latitude).
    Latitude {
        /// Which area.
        area: usize,
        /// Which of its points.
        point: usize,
    },
    /// A point's longitude. The value is that of [`Point::longitude`](super::Point::longitude).
    Longitude {
        /// Which area.
        area: usize,
        /// Which of its points.
        point: usize,
    },
    /// A circle's radius, 0 to 1,023.
    Radius {
        /// Which area.
        area: usize,
    },
    /// The unit of a circle's radius.
    Unit {
        /// Which area.
        area: usize,
    },
}

impl Field {
    /// The field number of the first entry of the areas. The others follow it.
    pub const FIRST_ENTRY: usize = 8;

    /// The field's number in a notice that has these areas; none if they do not have the field.
    pub fn number(&self, areas: &[Area]) -> Option<usize> {
        match *self {
            Field::Source => Some(0),
            Field::Station => Some(1),
            Field::Serial => Some(2),
            Field::Year => Some(3),
            Field::Kind => Some(4),
            Field::Subtype => Some(5),
            Field::Expiry => Some(6),
            Field::Code { area } => of_area(areas, area, |area| matches!(area, Area::Sea { .. }).then_some(1)),
            Field::Latitude { area, point } => of_area(areas, area, |area| of_point(area, point)),
            Field::Longitude { area, point } => of_area(areas, area, |area| Some(of_point(area, point)? + 1)),
            Field::Radius { area } => of_area(areas, area, |area| matches!(area, Area::Circle { .. }).then_some(3)),
            Field::Unit { area } => of_area(areas, area, |area| matches!(area, Area::Circle { .. }).then_some(4)),
        }
    }
}

/// The number of an area's entry, if there is that area and it has the entry.
fn of_area(areas: &[Area], at: usize, entry: impl Fn(&Area) -> Option<usize>) -> Option<usize> {
    let before: usize = areas.get(..at)?.iter().map(|area| area.entries().len()).sum();
    Some(Field::FIRST_ENTRY + before + entry(areas.get(at)?)?)
}

/// Where a point's latitude stands among its area's entries. The points of a circle come after its kind, those of other
/// areas after their count too.
fn of_point(area: &Area, at: usize) -> Option<usize> {
    let before = if matches!(area, Area::Circle { .. }) { 1 } else { 2 };
    area.points().get(at).map(|_| before + 2 * at)
}
