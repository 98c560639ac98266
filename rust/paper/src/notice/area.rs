//! The areas of a notice (000, tables 7 to 9).

use crate::{bits, field};
use record::Refusal;

/// The kinds of area.
const SEA: u32 = 0;
const POINTS: u32 = 1;
const LINE: u32 = 2;
const CIRCLE: u32 = 3;
const POLYGON: u32 = 4;

/// A number of an area.
#[derive(Clone, Copy, PartialEq)]
pub enum Part {
    Kind,
    Code,
    /// How many points there are, and the least that there have to be.
    Count {
        least: u32,
    },
    Latitude,
    Longitude,
    Radius,
    Unit,
}

/// Goes over the numbers of so many areas in bit order. `next` answers what each of them is, or refuses it, so that a
/// kind is one of the five.
pub fn walk(areas: u32, mut next: impl FnMut(Part) -> Result<u32, Refusal>) -> Result<(), Refusal> {
    for _ in 0..areas {
        let least = match next(Part::Kind)? {
            SEA => {
                next(Part::Code)?;
                continue;
            }
            CIRCLE => {
                walk_points(1, &mut next)?;
                next(Part::Radius)?;
                next(Part::Unit)?;
                continue;
            }
            POINTS => 1,
            LINE => 2,
            _ => 3,
        };
        let points = next(Part::Count { least })?;
        walk_points(points, &mut next)?;
    }
    Ok(())
}

fn walk_points(points: u32, next: &mut impl FnMut(Part) -> Result<u32, Refusal>) -> Result<(), Refusal> {
    for _ in 0..points {
        next(Part::Latitude)?;
        next(Part::Longitude)?;
    }
    Ok(())
}

const MOST_MINUTES: u32 = 60;
const MOST_HUNDREDTHS: u32 = 99;

impl Part {
    pub fn width(self) -> u32 {
        match self {
            Part::Kind => 3,
            Part::Code => 8,
            Part::Count { .. } => 4,
            Part::Latitude => 21,
            Part::Longitude => 22,
            Part::Radius => 10,
            Part::Unit => 2,
        }
    }

    /// Kinds and counts decide the layout, so that they are not corrected.
    pub fn is_free(self) -> bool {
        !matches!(self, Part::Kind | Part::Count { .. })
    }

    /// The width of an angle's degrees and the most that they may be; none where this is no angle.
    fn degrees(self) -> Option<(u32, u32)> {
        match self {
            Part::Latitude => Some((7, 90)),
            Part::Longitude => Some((8, 180)),
            _ => None,
        }
    }

    pub fn is_angle(self) -> bool {
        self.degrees().is_some()
    }

    /// A value is not too wide, and in its range; of an angle each part is.
    pub fn good(self, value: u32) -> bool {
        let fits = value >> self.width() == 0;
        let Some((width, most)) = self.degrees() else {
            return match self {
                Part::Kind => value <= POLYGON,
                Part::Count { least } => fits & (value >= least),
                _ => fits,
            };
        };
        let [degrees, minutes, hundredths] = parts(value, width);
        fits & (degrees <= most) & (minutes <= MOST_MINUTES) & (hundredths <= MOST_HUNDREDTHS)
    }

    /// What it is made of: an angle of four parts, each other number of one.
    pub fn made_of(self) -> Vec<bits::Part> {
        let widest = (1 << self.width()) - 1;
        match self {
            Part::Kind => vec![(3, SEA, POLYGON)],
            Part::Count { least } => vec![(4, least, widest)],
            Part::Code | Part::Radius | Part::Unit => vec![(self.width(), 0, widest)],
            Part::Latitude | Part::Longitude => {
                let (width, most) = self.degrees().expect("an angle");
                vec![(1, 0, 1), (width, 0, most), (6, 0, MOST_MINUTES), (7, 0, MOST_HUNDREDTHS)]
            }
        }
    }

    /// The number that starts at a bit of a good notice; goes past it.
    pub fn take(self, message: &[u8], at: &mut usize) -> u32 {
        let value = bits::get(message, *at, self.width());
        *at += self.width() as usize;
        value
    }

    /// Reads the number that starts at a bit, and goes past it.
    #[inline]
    pub fn read(self, message: &[u8], at: &mut usize) -> Result<u32, Refusal> {
        let end = *at + self.width() as usize;
        if end <= 8 * message.len() {
            let value = bits::get(message, *at, self.width());
            if self.good(value) {
                *at = end;
                return Ok(value);
            }
        }
        Err(self.fault(message, *at))
    }

    /// What refuses a number of a message that is not good, or not all there: its first part that is so.
    #[cold]
    fn fault(self, message: &[u8], at: usize) -> Refusal {
        bits::fault(message, at, &self.made_of()).expect("a number that is refused")
    }

    /// Judges a value, to stand from a bit on. One that is too wide is refused at that bit.
    pub fn judge(self, value: u32, at: u32) -> Result<(), Refusal> {
        if self.good(value) {
            Ok(())
        } else {
            Err(self.fault_of(value, at))
        }
    }

    #[cold]
    fn fault_of(self, value: u32, at: u32) -> Refusal {
        if value >> self.width() > 0 {
            return Refusal::RANGE.at(at);
        }
        let spelled = u64::from(value) << (u64::BITS - self.width());
        let refusal = self.fault(&spelled.to_be_bytes(), 0);
        refusal.at(at + refusal.bit())
    }

    /// An angle in hundredths of a minute, south and west negative.
    pub fn hundredths(self, value: u32) -> Option<i32> {
        let (width, _) = self.degrees()?;
        let [degrees, minutes, hundredths] = parts(value, width);
        let size = (6_000 * degrees + 100 * minutes + hundredths) as i32;
        let is_negative = value >> (13 + width) == 1;
        Some(if is_negative { -size } else { size })
    }
}

/// The degrees, of that width, the minutes and the hundredths of an angle.
fn parts(angle: u32, degrees_width: u32) -> [u32; 3] {
    [(13, degrees_width), (7, 6), (0, 7)].map(|(below, width)| field(angle.into(), below, width) as u32)
}
