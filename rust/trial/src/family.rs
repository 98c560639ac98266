//! The families that are compared.
//!
//! A new one is a module here. It also needs one in `inputs` and `numbers`, and in each of the crates `bellnewt`,
//! `paper` and `bench`; in `record` too, if both programs share a type.

pub mod ais;
pub mod desk;
pub mod distress;
pub mod notice;
pub mod packet;
pub mod serial;
pub mod tide;

use crate::harness::{self, Options, Tally};

/// The answers of the compiled, proved code.
pub struct Proved;

/// The answers of the independent program. Its calls are never inlined, since those of the library can't be.
pub struct Paper;

/// Copies a content to the front of the bytes, where it fits, as the calls of `direct` do. Answers how many bytes it has.
fn show(content: &[u8], bytes: &mut [u8]) -> usize {
    if let Some(front) = bytes.get_mut(..content.len()) {
        front.copy_from_slice(content);
    }
    content.len()
}

/// Runs every family.
pub fn run(options: &Options, tally: &mut Tally) {
    harness::print_head();
    harness::run::<distress::Distress>(options, tally);
    serial::run(options, tally);
    ais::run(options, tally);
    harness::run::<packet::Packets>(options, tally);
    harness::run::<notice::Notices>(options, tally);
    desk::run(options, tally);
    harness::run::<tide::Tides>(options, tally);
}
