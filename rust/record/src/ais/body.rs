//! What a warning of each type says.

/// What a warning of each type says.
///
/// A cyclone's kind, a gale's direction and the visibility in fog have a range. Every other number is carried as it is.
/// Outside the range that 003 prints it means none.
#[derive(Clone, Copy, PartialEq, Eq, Debug)]
pub enum Body {
    /// A tropical cyclone.
    Cyclone {
        /// 1 depression, 2 storm, 3 severe storm, 4 typhoon.
        kind: u8,
        /// Kilometres with wind of force 8.
        gale_radius: u16,
        /// Kilometres with wind of force 10.
        storm_radius: u16,
        /// Kilometres an hour.
        speed: u8,
        /// Degrees.
        direction: u16,
        /// The greatest force of the wind near the centre.
        force: u8,
        /// Hectopascals from 800 on.
        pressure: u16,
    },
    /// A gale.
    Gale {
        /// Nautical miles.
        radius: u8,
        /// The least force of the wind.
        least: u8,
        /// The greatest force of the wind.
        greatest: u8,
        /// Where it comes from: 1 east, then by way of the south to 8, north-east.
        direction: u8,
    },
    /// High waves.
    Waves {
        /// Kilometres.
        radius: u8,
        /// Metres.
        height: u8,
        /// Seconds.
        period: u16,
    },
    /// Fog.
    Fog {
        /// Kilometres.
        radius: u16,
        /// Tenths of a nautical mile, 0 to 250.
        visibility: u8,
    },
    /// A storm surge.
    Surge {
        /// Nautical miles.
        radius: u16,
        /// Centimetres of water more.
        rise: u16,
        /// The tide's level in centimetres.
        tide: u16,
        /// Seconds.
        period: u16,
    },
}

impl Body {
    /// The most numbers that a body has. A row has an entry for each. Those that a type has no number for are 0.
    pub const NUMBERS: usize = 7;

    /// The warning type: 1 cyclone, 2 gale, 3 waves, 4 fog, 5 surge.
    #[inline]
    pub fn kind(&self) -> u8 {
        match self {
            Body::Cyclone { .. } => 1,
            Body::Gale { .. } => 2,
            Body::Waves { .. } => 3,
            Body::Fog { .. } => 4,
            Body::Surge { .. } => 5,
        }
    }

    #[inline]
    pub(super) fn numbers(&self) -> [i64; Body::NUMBERS] {
        match *self {
            Body::Cyclone { kind, gale_radius, storm_radius, speed, direction, force, pressure } => [
                kind.into(),
                gale_radius.into(),
                storm_radius.into(),
                speed.into(),
                direction.into(),
                force.into(),
                pressure.into(),
            ],
            Body::Gale { radius, least, greatest, direction } => {
                [radius.into(), least.into(), greatest.into(), direction.into(), 0, 0, 0]
            }
            Body::Waves { radius, height, period } => [radius.into(), height.into(), period.into(), 0, 0, 0, 0],
            Body::Fog { radius, visibility } => [radius.into(), visibility.into(), 0, 0, 0, 0, 0],
            Body::Surge { radius, rise, tide, period } => {
                [radius.into(), rise.into(), tide.into(), period.into(), 0, 0, 0]
            }
        }
    }

    #[inline]
    pub(super) fn of_numbers(kind: i64, numbers: &[i64; Body::NUMBERS]) -> Body {
        match (kind, *numbers) {
            (1, [kind, gale_radius, storm_radius, speed, direction, force, pressure]) => Body::Cyclone {
                kind: kind as u8,
                gale_radius: gale_radius as u16,
                storm_radius: storm_radius as u16,
                speed: speed as u8,
                direction: direction as u16,
                force: force as u8,
                pressure: pressure as u16,
            },
            (2, [radius, least, greatest, direction, ..]) => Body::Gale {
                radius: radius as u8,
                least: least as u8,
                greatest: greatest as u8,
                direction: direction as u8,
            },
            (3, [radius, height, period, ..]) => {
                Body::Waves { radius: radius as u8, height: height as u8, period: period as u16 }
            }
            (4, [radius, visibility, ..]) => Body::Fog { radius: radius as u16, visibility: visibility as u8 },
            (5, [radius, rise, tide, period, ..]) => {
                Body::Surge { radius: radius as u16, rise: rise as u16, tide: tide as u16, period: period as u16 }
            }
            _ => panic!("a row has one of the five types"),
        }
    }
}
