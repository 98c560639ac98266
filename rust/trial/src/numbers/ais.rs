//! Case K, a message of each type and shape with its bytes spelled from the tables of 003, and refusals whose order is
//! easily mistaken.

mod messages;

pub use messages::{AREAS, WARNINGS};

use super::at;
use crate::family::ais::{Calls, Kind, SlotCall};
use crate::family::{Paper, Proved};
use crate::harness::Tally;
use bellnewt::ais::{correct, read, slots, write};
use messages::CIRCLE;
use record::{Ais, Area, Refusal, Warning};

/// A message with other bytes at some places.
pub fn with_bytes(message: &[u8], others: &[(usize, u8)]) -> Vec<u8> {
    let mut message = message.to_vec();
    others.iter().for_each(|(at, byte)| message[*at] = *byte);
    message
}

pub fn run(tally: &mut Tally) {
    cases::<Proved>("proved", tally);
    cases::<Paper>("paper", tally);
    wrapped(tally);
}

fn cases<C: Calls<Warning> + Calls<Area> + SlotCall>(who: &str, tally: &mut Tally) {
    case_k::<C>(who, tally);
    for (warning, bytes) in &WARNINGS {
        good::<C, Warning>(&format!("{who}: warning {}", warning.body.kind()), bytes, &warning.row(), warning, tally);
    }
    for (area, bytes) in &AREAS {
        good::<C, Area>(&format!("{who}: shape {}", area.shape.kind()), bytes, &area.row(), area, tally);
    }
    refused_warnings::<C>(who, tally);
    refused_areas::<C>(who, tally);
    corrections::<C>(who, tally);
}

/// The limits on both sides: message, bytes, the number answered and the slots.
fn case_k<C: SlotCall>(who: &str, tally: &mut Tally) {
    let kept = 99;
    for (message, bytes, due, due_slots) in [
        (8, 12, 0, 1),
        (8, 13, 0, 2),
        (8, 121, 0, 5),
        (8, 122, 1, kept),
        (8, 0, 1, kept),
        (6, 8, 0, 1),
        (6, 9, 0, 2),
        (6, 117, 0, 5),
        (6, 118, 1, kept),
        (7, 0, 2, kept),
    ] {
        let mut slots = kept;
        let code = C::slots(message, bytes, &mut slots);
        tally.same(&format!("{who}: case K, message {message}, {bytes} bytes"), (code, slots), (due, due_slots));
    }
}

/// A good message, read and written back byte for byte.
fn good<C: Calls<M>, M: Kind>(case: &str, message: &[u8], row: &[i64], record: &M, tally: &mut Tally) {
    let mut found = vec![0; M::ROW];
    let code = C::read(message, &mut found);
    tally.same(&format!("{case} read"), (code, &found[..]), (0, row));

    let mut bytes = vec![0; message.len()];
    let code = C::write(&mut bytes, record);
    tally.same(&format!("{case} written"), (code, &bytes[..]), (0, message));
}

/// A message that is refused, and leaves the row.
fn refused<C: Calls<M>, M: Kind>(case: &str, message: &[u8], due: u32, tally: &mut Tally) {
    let mut row = vec![7; M::ROW];
    let code = C::read(message, &mut row);
    tally.same(case, (code, row), (due, vec![7; M::ROW]));
}

fn refused_warnings<C: Calls<Warning>>(who: &str, tally: &mut Tally) {
    let cyclone = &WARNINGS[0].1;
    let fog = &WARNINGS[3].1;
    for (case, message, due) in [
        ("22 bytes of another application", with_bytes(cyclone, &[(6, 0x0B)])[..22].to_vec(), 1),
        ("message 6 with 412/03", with_bytes(cyclone, &[(0, 0x18)]), 2),
        ("message 8 with 412/11", with_bytes(cyclone, &[(6, 0x0B)]), 2),
        ("warning type 0", with_bytes(cyclone, &[(7, 0x07)]), 2),
        ("warning type 6", with_bytes(cyclone, &[(7, 0x67)]), 2),
        ("24 bytes of warning type 6", [&with_bytes(cyclone, &[(7, 0x67)])[..], &[0]].concat(), 2),
        ("24 bytes", [&cyclone[..], &[0]].concat(), 1),
        ("a bad source before the header's fill", with_bytes(cyclone, &[(1, 0xFF), (4, 0xD1)]), at(4, 8)),
        ("the header's fill before a bad longitude", with_bytes(cyclone, &[(4, 0xD1), (7, 0x1F)]), at(5, 38)),
        ("visibility 251 before the body's fill", with_bytes(fog, &[(14, 0x1F), (15, 0x61)]), at(4, 115)),
        ("the body's fill before a bad month", with_bytes(fog, &[(18, 0x10), (19, 0x0D)]), at(5, 123)),
        ("49 hours before the last fill", with_bytes(fog, &[(22, 0xC5)]), at(4, 176)),
        ("the last fill", with_bytes(fog, &[(22, 0xC2)]), at(5, 182)),
    ] {
        refused::<C, Warning>(&format!("{who}: {case}"), &message, due, tally);
    }
}

fn refused_areas<C: Calls<Area>>(who: &str, tally: &mut Tally) {
    let circle = &AREAS[0].1;
    let shape_3 = with_bytes(circle, &[(11, 0x1D)]);
    for (case, message, due) in [
        ("22 bytes of shape 3", shape_3[..22].to_vec(), 1),
        ("23 bytes of shape 3", shape_3[..23].to_vec(), 2),
        ("shape 3", shape_3, 2),
        ("shape 0 in area kind 15", with_bytes(circle, &[(11, 0xF1)]), 2),
        ("23 bytes of a circle", circle[..23].to_vec(), 1),
        ("30 bytes of area kind 15", with_bytes(circle, &[(11, 0xF5)])[..30].to_vec(), 1),
        ("area kind 15", with_bytes(circle, &[(11, 0xF5)]), at(4, 88)),
        ("area kind 0", with_bytes(circle, &[(11, 0x05)]), at(4, 88)),
        ("message 6 with 412/03", with_bytes(circle, &[(10, 0x03)]), 2),
        ("message 8 with 412/11", with_bytes(circle, &[(0, 0x20)]), 2),
        ("the header's fill before area kind 0", with_bytes(circle, &[(8, 0x55), (11, 0x05)]), at(5, 71)),
        ("the circle's fill before a bad month", with_bytes(circle, &[(24, 0x01), (25, 0x0D)]), at(5, 156)),
        ("advice 7 before the last fill", with_bytes(circle, &[(29, 0x49), (30, 0xC1)]), at(4, 238)),
        ("the last fill", with_bytes(circle, &[(30, 0xA0)]), at(5, 242)),
    ] {
        refused::<C, Area>(&format!("{who}: {case}"), &message, due, tally);
    }
}

/// Corrections of a field that spans bytes, of one with a sign, of times, and of what another type or shape has.
fn corrections<C: Calls<Warning> + Calls<Area>>(who: &str, tally: &mut Tally) {
    let corrected = |message: &[u8], field: usize, value: u64, correct: fn(&mut [u8], usize, u64) -> u32| {
        let mut message = message.to_vec();
        (correct(&mut message, field, value), message)
    };
    let cyclone = &WARNINGS[0].1;
    for (field, value, due, others) in [
        (Warning::SOURCE, 0, 0, &[(2, 0), (3, 0), (4, 0)][..]),
        (Warning::TIME, 0, 0, &[(19, 0x60), (20, 0), (21, 0)][..]),
        (Warning::TIME, 13 << 16, at(4, 156), &[][..]),
        (Warning::TIME, 1 << 20, at(4, 156), &[][..]),
        (Warning::CYCLONE_PRESSURE, 511, 0, &[(18, 0xDF), (19, 0xF8)][..]),
        (Warning::CYCLONE_PRESSURE, 512, at(4, 147), &[][..]),
        (Warning::GALE_RADIUS, 100, 10, &[][..]),
        (0, 0, 10, &[][..]),
        (27, 0, 10, &[][..]),
    ] {
        let found = corrected(cyclone, field, value, <C as Calls<Warning>>::correct);
        let case = format!("{who}: a cyclone's field {field} corrected to {value}");
        tally.same(&case, found, (due, with_bytes(cyclone, others)));
    }
    let circle = &AREAS[0].1;
    let minus_1 = &[(11, 0x17), (12, 0xFF), (13, 0xFF), (14, 0xFF), (15, 0xC8)][..];
    for (field, value, due, others) in [
        (Area::LONGITUDE, (1 << 28) - 1, 0, minus_1),
        (Area::LONGITUDE, u64::MAX, at(4, 94), &[][..]),
        (Area::SECOND_TIME, 24, at(4, 233), &[][..]),
        (Area::CIRCLE_RADIUS, 127, 0, &[(18, 0x87), (19, 0xF0)][..]),
        (Area::RECTANGLE_LONGITUDE, 0, 10, &[][..]),
        (15, 0, 10, &[][..]),
    ] {
        let found = corrected(circle, field, value, <C as Calls<Area>>::correct);
        let case = format!("{who}: a circle's field {field} corrected to {value}");
        tally.same(&case, found, (due, with_bytes(circle, others)));
    }
}

/// The wrapper's calls over records.
fn wrapped(tally: &mut Tally) {
    for (warning, bytes) in &WARNINGS {
        tally.same(&format!("wrapper: warning {}", warning.body.kind()), read(bytes), Ok(*warning));
    }
    for (area, bytes) in &AREAS {
        tally.same(&format!("wrapper: shape {}", area.shape.kind()), read(bytes), Ok(*area));
    }
    tally.same("wrapper: no bytes", read::<Warning>(&[]), Err(Refusal::SIZE));
    tally.same("wrapper: the other message", read::<Area>(&WARNINGS[0].1), Err(Refusal::KIND));
    tally.same("wrapper: slots", slots(8, 13), Ok(2));
    tally.same("wrapper: slots of message 7", slots(7, 13), Err(Refusal::KIND));

    let mut bytes = AREAS[0].1;
    tally.same("wrapper: an area's room", write(&mut bytes[..30], &CIRCLE), Err(Refusal::ROOM));
    tally.same("wrapper: advice corrected", correct::<Area>(&mut bytes, Area::ADVICE, 3), Ok(()));
    tally.same("wrapper: advice read", read(&bytes), Ok(Area { advice: 3, ..CIRCLE }));
}
