//! Areas.

use super::piece::Piece;
use super::piece::{ABSENT, COUNTRY, DAY, HOUR, MINUTE, MMSI, MONTH, REPEAT, SECOND_TIME, SOURCE, TIME};
use super::Kind;
use crate::inputs::field::{field, Field};
use record::Area;

const ADDRESSED: Piece = Piece::code(6, &[6]);
const APPLICATION: Piece = Piece::code(6, &[11]);
const SEQUENCE: Piece = Piece::carried(Area::SEQUENCE, 2, &[0]);
const DESTINATION: Piece = Piece::own(Area::DESTINATION, MMSI);
const RESENT: Piece = Piece::carried(Area::RESENT, 1, &[0]);
const KIND: Piece = Piece::own(Area::KIND, field(4, 1, 14, &[14]));
const ADVICE: Piece = Piece::own(Area::ADVICE, field(4, 1, 6, &[6]));

const fn longitude(number: usize) -> Piece {
    Piece::own(number, field(28, -108_000_000, 108_000_000, &[108_600_000]))
}

const fn latitude(number: usize) -> Piece {
    Piece::own(number, field(27, -54_000_000, 54_000_000, &[54_600_000]))
}

#[rustfmt::skip]
const CIRCLE: &[Piece] = &[
    ADDRESSED, REPEAT, SOURCE, SEQUENCE, DESTINATION, RESENT, Piece::fill(1), COUNTRY, APPLICATION,
    KIND, Piece::variant(2, &[1]), longitude(Area::LONGITUDE), latitude(Area::LATITUDE),
    Piece::carried(Area::CIRCLE_RADIUS, 7, &[0]),
    ABSENT, Piece::fill(48),
    MONTH, DAY, HOUR, MINUTE, MONTH, DAY, HOUR, ADVICE, Piece::fill(6),
];

#[rustfmt::skip]
const RECTANGLE: &[Piece] = &[
    ADDRESSED, REPEAT, SOURCE, SEQUENCE, DESTINATION, RESENT, Piece::fill(1), COUNTRY, APPLICATION,
    KIND, Piece::variant(2, &[2]), longitude(Area::LONGITUDE), latitude(Area::LATITUDE),
    longitude(Area::RECTANGLE_LONGITUDE), latitude(Area::RECTANGLE_LATITUDE),
    MONTH, DAY, HOUR, MINUTE, MONTH, DAY, HOUR, ADVICE, Piece::fill(6),
];

impl Kind for Area {
    const LAYOUTS: &'static [&'static [Piece]] = &[CIRCLE, RECTANGLE];
    const TIMES: &'static [(usize, Field)] = &[(Area::TIME, TIME), (Area::SECOND_TIME, SECOND_TIME)];
}
