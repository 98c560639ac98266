//! Warnings.

use super::piece::Piece;
use super::piece::{ABSENT, COUNTRY, DAY, HOUR, MINUTE, MONTH, REPEAT, SOURCE, TIME};
use super::Kind;
use crate::inputs::field::{field, Field};
use record::Warning;

const BROADCAST: Piece = Piece::code(6, &[8]);
const APPLICATION: Piece = Piece::code(6, &[3]);
const LONGITUDE: Piece = Piece::own(Warning::LONGITUDE, field(23, 0, 7_200_000, &[0]));
const LATITUDE: Piece = Piece::own(Warning::LATITUDE, field(23, 0, 7_200_000, &[0]));
const HOURS: Piece = Piece::own(Warning::HOURS, field(6, 0, 48, &[0]));

#[rustfmt::skip]
const CYCLONE: &[Piece] = &[
    BROADCAST, REPEAT, SOURCE, Piece::fill(2), COUNTRY, APPLICATION, Piece::variant(4, &[1]), LONGITUDE, LATITUDE,
    Piece::own(Warning::CYCLONE_KIND, field(3, 1, 4, &[4])),
    Piece::carried(Warning::CYCLONE_GALE_RADIUS, 9, &[1, 500, 501]),
    Piece::carried(Warning::CYCLONE_STORM_RADIUS, 9, &[1, 500, 501]),
    Piece::carried(Warning::CYCLONE_SPEED, 6, &[1]),
    Piece::carried(Warning::CYCLONE_DIRECTION, 9, &[359, 360]),
    Piece::carried(Warning::CYCLONE_FORCE, 5, &[1, 20, 21]),
    Piece::carried(Warning::CYCLONE_PRESSURE, 9, &[400, 401]),
    MONTH, DAY, HOUR, MINUTE, HOURS, Piece::fill(2),
];

#[rustfmt::skip]
const GALE: &[Piece] = &[
    BROADCAST, REPEAT, SOURCE, Piece::fill(2), COUNTRY, APPLICATION, Piece::variant(4, &[2]), LONGITUDE, LATITUDE,
    Piece::carried(Warning::GALE_RADIUS, 8, &[1, 250, 251]),
    Piece::carried(Warning::GALE_LEAST, 5, &[1, 20, 21]),
    Piece::carried(Warning::GALE_GREATEST, 5, &[1, 20, 21]),
    Piece::own(Warning::GALE_DIRECTION, field(4, 1, 8, &[8])),
    ABSENT, ABSENT, ABSENT, Piece::fill(28),
    MONTH, DAY, HOUR, MINUTE, HOURS, Piece::fill(2),
];

#[rustfmt::skip]
const WAVES: &[Piece] = &[
    BROADCAST, REPEAT, SOURCE, Piece::fill(2), COUNTRY, APPLICATION, Piece::variant(4, &[3]), LONGITUDE, LATITUDE,
    Piece::carried(Warning::WAVES_RADIUS, 8, &[1, 250, 251]),
    Piece::carried(Warning::WAVES_HEIGHT, 5, &[1]),
    Piece::carried(Warning::WAVES_PERIOD, 13, &[1, 3_600, 3_601]),
    ABSENT, ABSENT, ABSENT, ABSENT, Piece::fill(24),
    MONTH, DAY, HOUR, MINUTE, HOURS, Piece::fill(2),
];

#[rustfmt::skip]
const FOG: &[Piece] = &[
    BROADCAST, REPEAT, SOURCE, Piece::fill(2), COUNTRY, APPLICATION, Piece::variant(4, &[4]), LONGITUDE, LATITUDE,
    Piece::carried(Warning::FOG_RADIUS, 9, &[1, 500, 501]),
    Piece::own(Warning::FOG_VISIBILITY, field(8, 0, 250, &[0])),
    ABSENT, ABSENT, ABSENT, ABSENT, ABSENT, Piece::fill(33),
    MONTH, DAY, HOUR, MINUTE, HOURS, Piece::fill(2),
];

#[rustfmt::skip]
const SURGE: &[Piece] = &[
    BROADCAST, REPEAT, SOURCE, Piece::fill(2), COUNTRY, APPLICATION, Piece::variant(4, &[5]), LONGITUDE, LATITUDE,
    Piece::carried(Warning::SURGE_RADIUS, 9, &[1, 500, 501]),
    Piece::carried(Warning::SURGE_RISE, 9, &[1, 500, 501]),
    Piece::carried(Warning::SURGE_TIDE, 10, &[1, 1_000, 1_001]),
    Piece::carried(Warning::SURGE_PERIOD, 13, &[1, 3_600, 3_601]),
    ABSENT, ABSENT, ABSENT, Piece::fill(9),
    MONTH, DAY, HOUR, MINUTE, HOURS, Piece::fill(2),
];

impl Kind for Warning {
    const LAYOUTS: &'static [&'static [Piece]] = &[CYCLONE, GALE, WAVES, FOG, SURGE];
    const TIMES: &'static [(usize, Field)] = &[(Warning::TIME, TIME)];
}
