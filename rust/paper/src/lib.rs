//! The independent program: what the papers ask for, in plain Rust.
//!
//! It is written from the papers and not from the proved code. It shares the records with it (`bellnewt-record`) and
//! nothing else, and it does not link the library. It is the judge of the comparison and the measure of the benchmark.
//!
//! The numbers in brackets at the head of a module name the paper and the section that it is written from.
//!
//! Functions that a comparison of speed depends on are `#[inline]`, so that they are compiled where they are measured.
#![forbid(unsafe_code)]

pub mod ais;
mod bits;
pub mod daylog;
pub mod desk;
pub mod distress;
pub mod notice;
pub mod packet;
pub mod serial;
pub mod tide;

use record::Refusal;

const LARGEST_ADDRESS: u32 = 2_097_151;

#[inline]
fn need(holds: bool, refusal: Refusal) -> Result<(), Refusal> {
    if holds {
        Ok(())
    } else {
        Err(refusal)
    }
}

/// The `width` bits of a number that have `below` bits below them.
#[inline]
fn field(number: u64, below: u32, width: u32) -> u64 {
    number >> below & ((1 << width) - 1)
}

/// The new value of a corrected field that starts at a bit, if its bits can spell it.
#[inline]
fn narrow(value: u64, width: u32, at: u32) -> Result<u64, Refusal> {
    need(value >> width == 0, Refusal::RANGE.at(at))?;
    Ok(value)
}

/// A record that is judged by tests in bit order.
pub trait Tested: Copy {
    /// What stands in a message beside the record: its fills.
    type Fills: Copy;

    /// Makes the tests in bit order: whether each holds, and the refusal where it does not.
    fn tests(&self, fills: Self::Fills, test: &mut impl FnMut(bool, Refusal));

    /// Whether all tests hold. They are made together, without branches.
    #[inline]
    fn good(&self, fills: Self::Fills) -> bool {
        let mut good = true;
        self.tests(fills, &mut |holds, _| good &= holds);
        good
    }

    /// The refusal of the first test that fails; one does. It is given a copy, so that a good record need not be in memory.
    #[cold]
    fn fault(self, fills: Self::Fills) -> Refusal {
        let mut first = None;
        self.tests(fills, &mut |holds, refusal| {
            if !holds {
                first.get_or_insert(refusal);
            }
        });
        first.expect("a test fails")
    }

    #[inline]
    fn judge(&self, fills: Self::Fills) -> Result<(), Refusal> {
        if self.good(fills) {
            Ok(())
        } else {
            Err(self.fault(fills))
        }
    }
}

/// The number that `width` bits spell in two's complement.
#[inline]
fn signed(bits: u64, width: u32) -> i32 {
    let unused = 32 - width;
    (bits as i32) << unused >> unused
}

/// A longitude or latitude in its range, or none.
#[inline]
fn within(position: i32, bound: u32, none: i32) -> bool {
    (position.unsigned_abs() <= bound) | (position == none)
}

/// The checksum of serial frames and sentences.
#[inline]
fn xor(bytes: &[u8]) -> u8 {
    bytes.iter().fold(0, |sum, byte| sum ^ byte)
}
