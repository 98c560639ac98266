//! Cases C to F, and the example of 001, A.2, which C is.

use super::at;
use crate::family::distress::Calls;
use crate::family::{Paper, Proved};
use crate::harness::Tally;
use record::{Refusal, Report};

/// Case C: the report in the example of 001, A.2.
pub const EXAMPLE: [u8; Report::BYTES] =
    [0xBD, 0xC1, 0x07, 0x5B, 0xCD, 0x15, 0x38, 0x5C, 0x87, 0x80, 0xD1, 0xBA, 0x25, 0x8C, 0x8A, 0x16, 0xC0];

/// What it says. 001 explains the latitude as 35.123° N, which its bits do not spell; 01 decides.
pub const EXAMPLE_REPORT: Report = Report {
    mmsi: 123_456_789,
    longitude: 7_387_407,
    latitude: 107_380,
    day: 9,
    hour: 12,
    minute: 25,
    speed: 10,
    course: 45,
    kind: 8,
};

const SENTENCE: &[u8] = b"$CCTXA,1234567,2,2,A4bdc1075bcd15385c8780d1ba258c8a16c0*52\r\n";
const ADDRESS: u32 = 1_234_567;

/// The example with other bytes where its longitude stands. The last of them ends in seven bits of the latitude.
pub fn example_with_longitude(bytes: [u8; 4]) -> [u8; Report::BYTES] {
    let mut message = EXAMPLE;
    message[6..10].copy_from_slice(&bytes);
    message
}

pub fn run(tally: &mut Tally) {
    cases::<Proved>("proved", tally);
    cases::<Paper>("paper", tally);
    wrapped(tally);
}

fn cases<C: Calls>(who: &str, tally: &mut Tally) {
    example::<C>(who, tally);
    longitude::<C>(&format!("{who}: case D"), 10_800_000, [0x52, 0x65, 0xC0, 0x00], 0, tally);
    longitude::<C>(&format!("{who}: case E"), 10_800_001, [0x52, 0x65, 0xC0, 0x80], at(4, 48), tally);
    longitude::<C>(&format!("{who}: case F"), 10_860_000, [0x52, 0xDA, 0xF0, 0x00], 0, tally);
}

/// Case C and its sentence, read and written back byte for byte.
fn example<C: Calls>(who: &str, tally: &mut Tally) {
    let mut row = [0; Report::ROW];
    let code = C::read(&EXAMPLE, &mut row);
    tally.same(&format!("{who}: case C read"), (code, row), (0, EXAMPLE_REPORT.row()));

    let mut bytes = [0; Report::BYTES];
    let code = C::write(&mut bytes, &EXAMPLE_REPORT);
    tally.same(&format!("{who}: case C written"), (code, bytes), (0, EXAMPLE));

    let mut row = [0; 1 + Report::ROW];
    let code = C::read_sentence(SENTENCE, &mut row);
    let mut due = [ADDRESS.into(); 1 + Report::ROW];
    due[1..].copy_from_slice(&EXAMPLE_REPORT.row());
    tally.same(&format!("{who}: the sentence of 001, A.2 read"), (code, row), (0, due));

    let (mut bytes, mut size) = ([0; 60], 0);
    let code = C::write_sentence(&mut bytes, &mut size, ADDRESS, &EXAMPLE_REPORT);
    let found = (code, &bytes[..size]);
    tally.same(&format!("{who}: the sentence of 001, A.2 written"), found, (0, SENTENCE));
}

/// A longitude that is good or refused: written, read, and put in by a correction.
fn longitude<C: Calls>(case: &str, longitude: i32, spelled: [u8; 4], due: u32, tally: &mut Tally) {
    let report = Report { longitude, ..EXAMPLE_REPORT };
    let message = example_with_longitude(spelled);
    let or = |kept| if due == 0 { message } else { kept };

    let mut row = [0; Report::ROW];
    let code = C::read(&message, &mut row);
    let due_row = if due == 0 { report.row() } else { [0; Report::ROW] };
    tally.same(&format!("{case} read"), (code, row), (due, due_row));

    let mut bytes = [0; Report::BYTES];
    let code = C::write(&mut bytes, &report);
    tally.same(&format!("{case} written"), (code, bytes), (due, or([0; Report::BYTES])));

    let mut bytes = EXAMPLE;
    let code = C::correct(&mut bytes, Report::LONGITUDE, longitude as u64);
    tally.same(&format!("{case} corrected"), (code, bytes), (due, or(EXAMPLE)));
}

/// The wrapper's calls over records.
fn wrapped(tally: &mut Tally) {
    use bellnewt::distress::{read, read_sentence, write_sentence};
    tally.same("wrapper: case C", read(&EXAMPLE), Ok(EXAMPLE_REPORT));
    tally.same("wrapper: no bytes", read(&[]), Err(Refusal::SIZE));
    tally.same("wrapper: sentence", read_sentence(SENTENCE), Ok((ADDRESS, EXAMPLE_REPORT)));
    let mut buf = [0; 60];
    tally.same("wrapper: sentence written", write_sentence(&mut buf, ADDRESS, &EXAMPLE_REPORT), Ok(60));
    let refused = write_sentence(&mut buf[..59], ADDRESS, &EXAMPLE_REPORT);
    tally.same("wrapper: a sentence's room", refused, Err(Refusal::ROOM));
}
