//! Cases A and B.

use crate::family::serial::{Calls, Kind};
use crate::family::{Paper, Proved};
use crate::harness::Tally;
use bellnewt::serial::{correct, read, write};
use record::{Frame, Gljc, Refusal, Txsq};

/// Case A.
pub const REQUEST: [u8; 20] = [
    0x24, 0x54, 0x58, 0x53, 0x51, 0x00, 0x14, 0x02, 0x00, 0xBA, 0x46, 0x02, 0x00, 0xBA, 0x00, 0x10, 0x00, 0xA4, 0x31,
    0xFD,
];

/// What it says, beside its content.
pub const REQUEST_RECORD: Txsq =
    Txsq { address: 131_258, category: 1, mode: 1, password: 0, receiver: 131_258, bits: 16, answer: 0 };
pub const CONTENT: [u8; 2] = [0xA4, 0x31];

/// Case B, good.
pub const CHECK: [u8; 12] = [0x24, 0x47, 0x4C, 0x4A, 0x43, 0x00, 0x0C, 0x00, 0x00, 0x00, 0x00, 0x2A];
const CHECK_RECORD: Gljc = Gljc { address: 0, minutes: 0 };

/// Case B, refused: 004 prints this checksum.
pub const CHECK_AS_PRINTED: [u8; 12] = with_end([0x00, 0x0B]);

/// Case B with other minutes and another checksum.
const fn with_end([minutes, seal]: [u8; 2]) -> [u8; 12] {
    let mut frame = CHECK;
    frame[10] = minutes;
    frame[11] = seal;
    frame
}

pub fn run(tally: &mut Tally) {
    cases::<Proved>("proved", tally);
    cases::<Paper>("paper", tally);
    wrapped(tally);
}

fn cases<C: Calls<Gljc> + Calls<Txsq>>(who: &str, tally: &mut Tally) {
    let row = [131_258, 1, 1, 0, 131_258, 16, 0, 17, 2];
    good::<C, Txsq>(&format!("{who}: case A"), &REQUEST, &row, (&REQUEST_RECORD, &CONTENT), tally);
    good::<C, Gljc>(&format!("{who}: case B, 2A"), &CHECK, &[0, 0], (&CHECK_RECORD, &[]), tally);

    let mut row = [7; Gljc::ROW];
    let code = <C as Calls<Gljc>>::read(&CHECK_AS_PRINTED, &mut row);
    tally.same(&format!("{who}: case B, 0B"), (code, row), (3, [7; Gljc::ROW]));
}

/// A good frame, read and written back byte for byte.
fn good<C: Calls<F>, F: Kind>(case: &str, frame: &[u8], row: &[i64], (record, run): (&F, &[u8]), tally: &mut Tally) {
    let mut found = vec![0; F::ROW];
    let code = C::read(frame, &mut found);
    tally.same(&format!("{case} read"), (code, &found[..]), (0, row));

    let mut bytes = vec![0; frame.len()];
    let code = C::write(&mut bytes, record, run);
    tally.same(&format!("{case} written"), (code, &bytes[..]), (0, frame));
}

/// The wrapper's calls over records.
fn wrapped(tally: &mut Tally) {
    tally.same("wrapper: case A", read(&REQUEST), Ok((REQUEST_RECORD, &CONTENT[..])));
    let content = read::<Txsq>(&REQUEST).map_or(&[][..], |(_, content)| content);
    tally.check(std::ptr::eq(content, &REQUEST[17..19]), "wrapper: the content is a part of the frame");
    tally.same("wrapper: case B, 2A", read(&CHECK), Ok((CHECK_RECORD, &[][..])));
    tally.same("wrapper: case B, 0B", read::<Gljc>(&CHECK_AS_PRINTED), Err(Refusal::CHECKSUM));
    tally.same("wrapper: another kind", read::<Gljc>(&REQUEST), Err(Refusal::KIND));

    let mut frame = CHECK;
    tally.same("wrapper: a run for GLJC", write(&mut frame, &CHECK_RECORD, &[0]), Err(Refusal::SIZE));
    let answer = correct::<Gljc>(&mut frame, Gljc::MINUTES, 33);
    tally.same("wrapper: minutes corrected", (answer, frame), (Ok(()), with_end([33, 0x0B])));
}
