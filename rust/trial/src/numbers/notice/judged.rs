//! Notices that are good or refused, each for one reason.

use super::{at, BARE};
use record::{CHINESE, ENGLISH};

/// Case G with other bytes from the fourth on, where its type, subtype, expiry, areas and text stand.
pub fn bare_with(rest: &[u8]) -> Vec<u8> {
    [&BARE[..3], rest].concat()
}

/// Notices whose head or areas are judged: the case, its language, and what reading it answers.
pub fn heads_and_areas() -> Vec<(&'static str, Vec<u8>, u8, u32)> {
    vec![
        ("no bytes in language 2", vec![], 2, 4),
        ("no bytes", vec![], CHINESE, 1),
        ("7 bytes", BARE[..7].to_vec(), CHINESE, 1),
        ("8 zeros", vec![0; 8], CHINESE, 4),
        ("type 2 with a subtype", bare_with(&[0x60, 0x98, 0, 0, 0]), CHINESE, at(4, 34)),
        ("subtype 14", bare_with(&[0x61, 0x38, 0, 0, 0]), CHINESE, at(4, 34)),
        ("the next year and nothing more", bare_with(&[0x61, 0x1A, 0, 0, 0]), CHINESE, at(4, 39)),
        ("an area without a kind", bare_with(&[0x61, 0x18, 0, 0, 0x02]), CHINESE, at(1, 63)),
        ("kind 5", bare_with(&[0x61, 0x18, 0, 0, 0x03, 0x40]), CHINESE, at(4, 63)),
        ("no points", bare_with(&[0x61, 0x18, 0, 0, 0x02, 0x40]), CHINESE, at(4, 66)),
        ("a point that is missing", bare_with(&[0x61, 0x18, 0, 0, 0x02, 0x44]), CHINESE, at(1, 71)),
        ("a line of one point", bare_with(&[0x61, 0x18, 0, 0, 0x02, 0x84]), CHINESE, at(4, 66)),
        ("a polygon of two points", bare_with(&[0x61, 0x18, 0, 0, 0x03, 0x08]), CHINESE, at(4, 66)),
        ("latitude 91, then cut", bare_with(&[0x61, 0x18, 0, 0, 0x02, 0x45, 0x6C]), CHINESE, at(4, 71)),
        ("latitude 90, then cut", bare_with(&[0x61, 0x18, 0, 0, 0x02, 0x45, 0x68]), CHINESE, at(1, 78)),
        (
            "longitude 181, then cut",
            bare_with(&[0x61, 0x18, 0, 0, 2, 0x45, 0x6B, 0xCC, 0x6B, 0x50]),
            CHINESE,
            at(4, 92),
        ),
        (
            "longitude 180, then cut",
            bare_with(&[0x61, 0x18, 0, 0, 2, 0x45, 0x6B, 0xCC, 0x6B, 0x40]),
            CHINESE,
            at(1, 100),
        ),
        ("61 minutes", bare_with(&[0x61, 0x18, 0, 0, 2, 0x45, 0x6B, 0xD0, 0, 0, 0, 0]), CHINESE, at(4, 78)),
        ("100 hundredths", bare_with(&[0x61, 0x18, 0, 0, 2, 0x45, 0x68, 0, 0, 0, 0x32, 0]), CHINESE, at(4, 106)),
        ("31 February", bare_with(&[0x61, 0x18, 0x5F, 0, 0]), CHINESE, 0),
    ]
}

/// Notices whose text or fill is judged.
pub fn texts_and_fills() -> Vec<(&'static str, Vec<u8>, u8, u32)> {
    vec![
        ("0x1F before the fill", bare_with(&[0x61, 0x18, 0, 0, 0, 0x3F]), ENGLISH, at(4, 63)),
        ("a pair in English", bare_with(&[0x61, 0x18, 0, 0, 0x01, 0x61, 0x42]), ENGLISH, at(4, 63)),
        ("half a pair", bare_with(&[0x61, 0x18, 0, 0, 0x01, 0x60]), CHINESE, at(4, 63)),
        ("the pair past the last", bare_with(&[0x61, 0x18, 0, 0, 0x01, 0xAF, 0xF4]), CHINESE, at(4, 63)),
        ("the only bit of fill", bare_with(&[0x61, 0x18, 0, 0, 0x01]), CHINESE, at(5, 63)),
        ("the first of six bits of fill", bare_with(&[0x61, 0x18, 0, 0, 0x02, 0x04, 0x60]), CHINESE, at(5, 74)),
        ("the last of six bits of fill", bare_with(&[0x61, 0x18, 0, 0, 0x02, 0x04, 0x41]), CHINESE, at(5, 74)),
        ("the last pair", bare_with(&[0x61, 0x18, 0, 0, 0x01, 0xAF, 0xF2]), CHINESE, 0),
        ("a space", bare_with(&[0x61, 0x18, 0, 0, 0, 0x40]), ENGLISH, 0),
        ("six bits of fill", bare_with(&[0x61, 0x18, 0, 0, 0x02, 0x04, 0x40]), CHINESE, 0),
    ]
}
