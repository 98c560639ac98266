//! Three notices: case G, one with an area of each kind, and a Chinese one.

use bellnewt::notice::{Angle, Area, Expiry, Head, Notice, Point};
use record::{CHINESE, ENGLISH};

/// Case G.
pub const BARE: [u8; 8] = [0x20, 0x80, 0x02, 0x61, 0x18, 0x00, 0x00, 0x00];
pub const BARE_HEAD: Head = Head { source: 4, station: 1, serial: 1, year: 24, kind: 4, subtype: 6, expiry: 0 };

/// A notice of each kind of area, in English.
pub const WARNING: [u8; 62] = [
    0x59, 0x00, 0xF6, 0x61, 0x2D, 0x1B, 0x33, 0xCA, 0x04, 0x48, 0x8F, 0x1E, 0xC8, 0xF4, 0xF0, 0x04, 0x43, 0xC0, 0x00,
    0x3D, 0x00, 0x00, 0x7C, 0x00, 0x07, 0xB0, 0x00, 0x38, 0x00, 0x00, 0xED, 0x3C, 0xC6, 0x0C, 0xD0, 0xC9, 0xAD, 0x32,
    0x76, 0x7A, 0x59, 0x36, 0x40, 0x0E, 0xDD, 0xE3, 0x26, 0xA0, 0x29, 0xDC, 0x00, 0x09, 0x68, 0xA8, 0xAA, 0x04, 0x08,
    0x69, 0x88, 0xA8, 0x2A, 0x40,
];
pub const WARNING_HEAD: Head =
    Head { source: 11, station: 2, serial: 123, year: 24, kind: 4, subtype: 11, expiry: 579_998 };
pub const WARNING_EXPIRY: Expiry = Expiry { next_year: false, month: 8, day: 27, hour: 6, minute: 30 };
pub const WARNING_TEXT: [u8; 10] = *b"KEEP CLEAR";

/// A point north and east.
fn north_east(latitude: [u8; 3], longitude: [u8; 3]) -> Point {
    let angle = |[degrees, minutes, hundredths]: [u8; 3]| Angle { negative: false, degrees, minutes, hundredths };
    Point::new(angle(latitude), angle(longitude))
}

/// Case L: S 0°00.01', W 180°60.99'.
pub fn outermost() -> Point {
    let south = Angle { negative: true, degrees: 0, minutes: 0, hundredths: 1 };
    let west = Angle { negative: true, degrees: 180, minutes: 60, hundredths: 99 };
    Point::new(south, west)
}

/// The areas of that notice. The circle's centre is case L.
pub fn warning_areas() -> Vec<Area> {
    vec![
        Area::Sea { code: 17 },
        Area::Points(vec![north_east([30, 15, 50], [122, 30, 0])]),
        Area::Line(vec![north_east([30, 0, 0], [122, 0, 0]), north_east([31, 0, 0], [123, 0, 0])]),
        Area::Circle { centre: outermost(), radius: 25, unit: 2 },
        Area::Polygon(vec![
            north_east([38, 45, 25], [118, 30, 75]),
            north_east([38, 50, 0], [118, 59, 99]),
            north_east([38, 40, 5], [119, 0, 0]),
        ]),
    ]
}

pub const WARNING_OUTLINE: [[i32; 2]; 7] = [
    [181_550, 735_000],
    [180_000, 732_000],
    [186_000, 738_000],
    [-1, -1_086_099],
    [232_525, 711_075],
    [233_000, 713_999],
    [232_005, 714_000],
];

/// A Chinese notice of one sea area, whose text ends in the middle of a byte.
pub const CHINESE_NOTICE: [u8; 16] =
    [0x59, 0x00, 0x0E, 0x60, 0x68, 0x00, 0x00, 0x02, 0x04, 0x75, 0xB6, 0xF2, 0x6F, 0x48, 0x0D, 0xC0];
const CHINESE_HEAD: Head = Head { source: 11, station: 2, serial: 7, year: 24, kind: 1, subtype: 10, expiry: 0 };
const CHINESE_TEXT: [u8; 6] = [0xD6, 0xDB, 0xC9, 0xBD, 0x20, 0x37];

/// The three notices, their language, and what they say.
pub fn notices() -> [(&'static str, &'static [u8], u8, Notice); 3] {
    let notice = |head, areas, text: &[u8]| Notice { head, areas, text: text.to_vec() };
    [
        ("case G", &BARE, CHINESE, notice(BARE_HEAD, vec![], &[])),
        ("every area", &WARNING, ENGLISH, notice(WARNING_HEAD, warning_areas(), &WARNING_TEXT)),
        ("Chinese", &CHINESE_NOTICE, CHINESE, notice(CHINESE_HEAD, vec![Area::Sea { code: 17 }], &CHINESE_TEXT)),
    ]
}
