//! Cases G, H and L, a notice with an area of each kind whose bytes are spelled from the tables of 000, and refusals
//! whose order is easily mistaken.

mod judged;
mod notices;
mod wrapped;

pub use notices::{outermost, BARE, BARE_HEAD, CHINESE_NOTICE, WARNING};

use super::ais::with_bytes;
use super::at;
use crate::family::notice::Calls;
use crate::family::{Paper, Proved};
use crate::harness::Tally;
use bellnewt::notice::{Area, Head, Notice};
use judged::{bare_with, heads_and_areas, texts_and_fills};
use notices::{notices, WARNING_HEAD, WARNING_OUTLINE};
use record::{CHINESE, ENGLISH};

/// The areas of a notice as a row.
fn row_of(areas: &[Area]) -> Vec<u32> {
    areas.iter().flat_map(Area::entries).collect()
}

pub fn run(tally: &mut Tally) {
    cases::<Proved>("proved", tally);
    cases::<Paper>("paper", tally);
    wrapped::run(tally);
}

fn cases<C: Calls>(who: &str, tally: &mut Tally) {
    for (case, message, language, notice) in notices() {
        good::<C>(&format!("{who}: {case}"), message, language, &notice, tally);
    }
    judged::<C>(who, tally);
    greatest::<C>(who, tally);
    rooms::<C>(who, tally);
    not_written::<C>(who, tally);
    corrections::<C>(who, tally);
    outlines::<C>(who, tally);
}

/// A good notice, read and written back byte for byte.
fn good<C: Calls>(case: &str, message: &[u8], language: u8, notice: &Notice, tally: &mut Tally) {
    let entries = row_of(&notice.areas);
    let (mut row, mut areas, mut text) = ([0; Notice::ROW], vec![0; entries.len()], vec![0; notice.text.len()]);
    let code = C::read(message, language, &mut row, &mut areas, &mut text);
    let sizes = [notice.areas.len(), entries.len(), notice.text.len()].map(|size| size as i64);
    let due = [&notice.head.row()[..], &sizes].concat();
    tally.same(&format!("{case} read"), (code, &row[..]), (0, &due[..]));
    tally.same(&format!("{case}, its areas and text"), (&areas, &text), (&entries, &notice.text));

    let mut bytes = vec![0; message.len()];
    let code = C::write(&mut bytes, language, &notice.head, notice.areas.len() as u8, &entries, &notice.text);
    tally.same(&format!("{case} written"), (code, &bytes[..]), (0, message));
}

/// What reading a notice answers, with room for all that it could answer, and whether nothing of that was touched.
fn answer<C: Calls>(message: &[u8], language: u8) -> (u32, bool) {
    let (mut row, mut areas, mut text) = ([7; Notice::ROW], [7; Notice::ENTRIES], [7; Notice::TEXT]);
    let code = C::read(message, language, &mut row, &mut areas, &mut text);
    (code, row == [7; Notice::ROW] && areas == [7; Notice::ENTRIES] && text == [7; Notice::TEXT])
}

/// What reading answers. A good notice fills what it is lent, a refusal leaves it.
fn judged<C: Calls>(who: &str, tally: &mut Tally) {
    for (case, message, language, due) in heads_and_areas().into_iter().chain(texts_and_fills()) {
        tally.same(&format!("{who}: {case}"), answer::<C>(&message, language), (due, due != 0));
    }
}

/// Spaces up to the greatest size and past it, read and written.
fn greatest<C: Calls>(who: &str, tally: &mut Tally) {
    for (spaces, due) in [(Notice::TEXT, 0), (Notice::TEXT + 1, 1)] {
        let message = [&BARE[..], &vec![0x40; spaces]].concat();
        tally.same(&format!("{who}: {spaces} spaces read"), answer::<C>(&message, ENGLISH).0, due);

        let mut buf = vec![7; message.len()];
        let code = C::write(&mut buf, ENGLISH, &BARE_HEAD, 0, &[], &vec![0x20; spaces]);
        let due_buf = if due == 0 { message } else { vec![7; message.len()] };
        tally.check((code, buf) == (due, due_buf), format_args!("{who}: {spaces} spaces written"));
    }
}

/// A reading whose row, areas or text is one too short.
fn rooms<C: Calls>(who: &str, tally: &mut Tally) {
    for [row, areas, text] in [[9, 25, 10], [10, 24, 10], [10, 25, 9]] {
        let mut lent = (vec![7; row], vec![7; areas], vec![7; text]);
        let before = lent.clone();
        let code = C::read(&WARNING, ENGLISH, &mut lent.0, &mut lent.1, &mut lent.2);
        tally.same(&format!("{who}: room for {row}, {areas} and {text}"), (code, lent), (6, before));
    }
}

/// Records that are refused, with room for 8 bytes.
fn not_written<C: Calls>(who: &str, tally: &mut Tally) {
    let too_wide = 1 << 21;
    for (case, language, head, count, areas, due) in [
        ("language 2", 2, BARE_HEAD, 0, &[][..], 4),
        ("a serial too wide", CHINESE, Head { serial: 1 << 14, ..BARE_HEAD }, 0, &[], at(4, 9)),
        (
            "an expiry too wide",
            CHINESE,
            Head { expiry: WARNING_HEAD.expiry | too_wide, ..BARE_HEAD },
            0,
            &[],
            at(4, 38),
        ),
        ("16 areas", CHINESE, BARE_HEAD, 16, &[0; 32], at(4, 59)),
        ("kind 8", CHINESE, BARE_HEAD, 1, &[8, 1, 0, 0], at(4, 63)),
        ("a code too wide", CHINESE, BARE_HEAD, 1, &[0, 256], at(4, 66)),
        ("16 points", CHINESE, BARE_HEAD, 1, &[1, 16], at(4, 66)),
        ("a latitude too wide", CHINESE, BARE_HEAD, 1, &[3, too_wide, 0, 0, 0], at(4, 66)),
        ("a radius too wide", CHINESE, BARE_HEAD, 1, &[3, 0, 0, 1_024, 0], at(4, 109)),
        ("a unit too wide", CHINESE, BARE_HEAD, 1, &[3, 0, 0, 0, 4], at(4, 119)),
        ("an area that is missing, which is a sea area till room is asked", CHINESE, BARE_HEAD, 1, &[], 6),
        ("a count that is missing, which is 0", CHINESE, BARE_HEAD, 1, &[1], at(4, 66)),
        ("room for an area", CHINESE, BARE_HEAD, 1, &[0, 17], 6),
    ] {
        let mut buf = [7; 8];
        let code = C::write(&mut buf, language, &head, count, areas, &[]);
        tally.same(&format!("{who}: {case}, written"), (code, buf), (due, [7; 8]));
    }
    let mut buf = [7; 10];
    let code = C::write(&mut buf, CHINESE, &BARE_HEAD, 1, &[0], &[]);
    tally.same(&format!("{who}: a code that is missing, written"), (code, buf), (6, [7; 10]));
    let code = C::write(&mut buf, CHINESE, &BARE_HEAD, 0, &[8], &[]);
    let due = [&BARE[..], &[7, 7]].concat();
    tally.same(&format!("{who}: an entry that is not asked for, written"), (code, &buf[..]), (0, &due[..]));
}

/// A correction: the field's number, its new value, and what is answered, with the bytes that are others then.
type Corrected = (usize, u64, u32, &'static [(usize, u8)]);

/// Case H, and what decides the layout or is refused with the other fields.
const BARE_CORRECTIONS: [Corrected; 10] = [
    (3, 25, 0, &[(3, 0x65)]),
    (3, 100, at(4, 23), &[]),
    (3, 128, at(4, 23), &[]),
    (4, 1, 0, &[(3, 0x60), (4, 0x58)]),
    (4, 2, at(4, 34), &[]),
    (5, 0, at(4, 34), &[]),
    (6, 2 << 16 | 31 << 11, 0, &[(5, 0x5F)]),
    (6, 1 << 20, at(4, 39), &[]),
    (7, 0, 10, &[]),
    (8, 0, 10, &[]),
];

/// Of the areas' numbers too.
const WARNING_CORRECTIONS: [Corrected; 13] = [
    (6, 592_640, 0, &[(5, 0x21), (6, 0x60), (7, 0x0A)]),
    (8, 0, 10, &[]),
    (9, 255, 0, &[(8, 0x3F), (9, 0xC8)]),
    (9, 256, at(4, 66), &[]),
    (11, 1, 10, &[]),
    (21, 8_192, 0, &[(27, 0x30), (28, 0x10), (30, 0x6D)]),
    (21, 91 << 13, at(4, 221), &[]),
    (23, 1_023, 0, &[(32, 0xC7), (33, 0xFF)]),
    (24, 4, at(4, 273), &[]),
    (25, 4, 10, &[]),
    (32, 2_105_344, 0, &[(48, 0x2C), (49, 0x04)]),
    (33, 0, 10, &[]),
    (usize::MAX, 0, 10, &[]),
];

fn corrections<C: Calls>(who: &str, tally: &mut Tally) {
    let mut correct = |message: &[u8], language: u8, (field, value, due, others): Corrected| {
        let mut found = message.to_vec();
        let code = C::correct(&mut found, language, field, value);
        let case = format!("{who}: field {field} of {} bytes corrected to {value}", message.len());
        tally.same(&case, (code, found), (due, with_bytes(message, others)));
    };
    BARE_CORRECTIONS.into_iter().for_each(|corrected| correct(&BARE, CHINESE, corrected));
    WARNING_CORRECTIONS.into_iter().for_each(|corrected| correct(&WARNING, ENGLISH, corrected));
    correct(&BARE, 2, (33, 0, 4, &[]));
    correct(&BARE[..7], CHINESE, (33, 0, 1, &[]));
    correct(&bare_with(&[0x61, 0x18, 0, 0, 0x01]), CHINESE, (33, 0, at(5, 63), &[]));
}

/// Case L among the points of the notice of every area; a row too short; a notice without points.
fn outlines<C: Calls>(who: &str, tally: &mut Tally) {
    let due = WARNING_OUTLINE.as_flattened();
    let (mut row, mut points) = ([7; 15], 99);
    let code = C::outline(&WARNING, ENGLISH, &mut row, &mut points);
    let found = (code, points, &row[..14], row[14]);
    tally.same(&format!("{who}: case L and other points"), found, (0, 7, due, 7));

    let (mut row, mut points) = ([7; 13], 99);
    let code = C::outline(&WARNING, ENGLISH, &mut row, &mut points);
    tally.same(&format!("{who}: an outline's room"), (code, points, row), (6, 99, [7; 13]));
    let code = C::outline(&WARNING, 2, &mut row, &mut points);
    tally.same(&format!("{who}: an outline in language 2"), (code, points, row), (4, 99, [7; 13]));
    let code = C::outline(&BARE, CHINESE, &mut [], &mut points);
    tally.same(&format!("{who}: an outline of no points"), (code, points), (0, 0));
}
