//! The numbers of 01, "Numbers to stand by", and tide telegrams spelled by hand, asked of both programs and of the
//! wrapper.

pub mod ais;
pub mod desk;
pub mod distress;
pub mod notice;
pub mod packet;
pub mod serial;
pub mod tide;

use crate::harness::Tally;

/// A refusal of a field that starts at a bit, as C has it.
const fn at(number: u32, bit: u32) -> u32 {
    bit << 8 | number
}

pub fn run(tally: &mut Tally) {
    serial::run(tally);
    distress::run(tally);
    ais::run(tally);
    packet::run(tally);
    notice::run(tally);
    desk::run(tally);
    tide::run(tally);
}
