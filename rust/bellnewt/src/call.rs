//! What all calls of the library share.
//!
//! The library's contract, which every safe call of this crate meets: a pointer is not null and lends as many bytes or
//! entries as are said beside it, and what a call may write to is lent to it alone. A slice is such a pointer with its
//! length, and a `&mut` overlaps no other. The library keeps nothing that it was lent. It has no state, so that threads
//! may call it at the same time.

use record::Refusal;

/// A call that reads a message into a row.
pub type Read = unsafe extern "C" fn(*const u8, usize, *mut i64, usize) -> u32;
/// A call that corrects a field of a message.
pub type Correct = unsafe extern "C" fn(*mut u8, usize, usize, u64) -> u32;

/// The calls that the library has for a kind of message.
///
/// # Safety
///
/// Both are the library's, so that they ask no more of a caller than its contract.
pub unsafe trait Calls {
    const READ: Read;
    const CORRECT: Correct;
}

/// What a call's answer means.
#[inline]
pub fn answer(answer: u32) -> Result<(), Refusal> {
    match Refusal::of_answer(answer) {
        None => Ok(()),
        Some(refusal) => Err(refusal),
    }
}

/// Reads a message of a kind into a row.
#[inline]
pub fn read_row<T: Calls>(message: &[u8], row: &mut [i64]) -> Result<(), Refusal> {
    // SAFETY: see `call`.
    answer(unsafe { T::READ(message.as_ptr(), message.len(), row.as_mut_ptr(), row.len()) })
}

/// Corrects a field of a message of a kind.
#[inline]
pub fn correct<T: Calls>(message: &mut [u8], field: usize, value: u64) -> Result<(), Refusal> {
    // SAFETY: see `call`.
    answer(unsafe { T::CORRECT(message.as_mut_ptr(), message.len(), field, value) })
}
