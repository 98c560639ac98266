//! Why a call was refused, and where.

use std::error::Error;
use std::fmt;
use std::num::NonZeroU32;

/// Why a call was refused, by the numbers of 01, "Refusal numbers", and the bit of the message that is at fault.
///
/// The constants are the refusals that no field gave; [`at`](Refusal::at) makes of them those of a field.
#[derive(Clone, Copy, PartialEq, Eq)]
pub struct Refusal(
    /// As a call for C answers it: the number in the low 8 bits, the bit above them.
    NonZeroU32,
);

impl Refusal {
    /// 1: the input's size does not fit its layout or limits.
    pub const SIZE: Refusal = Refusal::new(1);
    /// 2: this name, kind, version or application is not handled.
    pub const KIND: Refusal = Refusal::new(2);
    /// 3: the checksum is wrong.
    pub const CHECKSUM: Refusal = Refusal::new(3);
    /// 4: a field is outside its range, or has a reserved code.
    pub const RANGE: Refusal = Refusal::new(4);
    /// 5: a padding bit is not zero.
    pub const FILL: Refusal = Refusal::new(5);
    /// 6: a lent buffer or row is too short.
    pub const ROOM: Refusal = Refusal::new(6);
    /// 7: the packet contradicts one that the desk holds.
    pub const CONTRADICTS: Refusal = Refusal::new(7);
    /// 8: all places of the desk are taken.
    pub const TAKEN: Refusal = Refusal::new(8);
    /// 9: the notice is not complete.
    pub const INCOMPLETE: Refusal = Refusal::new(9);
    /// 10: there is no such field, or it decides the layout.
    pub const FIELD: Refusal = Refusal::new(10);
    /// 11: no notice of that number is open.
    pub const UNKNOWN: Refusal = Refusal::new(11);

    #[inline]
    const fn new(answer: u32) -> Refusal {
        match Refusal::of_answer(answer) {
            Some(refusal) => refusal,
            None => panic!("0 is no refusal"),
        }
    }

    /// What a call for C answers: the number in the low 8 bits, the bit above them; none for 0, by which it accepts.
    #[inline]
    pub const fn of_answer(answer: u32) -> Option<Refusal> {
        match NonZeroU32::new(answer) {
            Some(answer) => Some(Refusal(answer)),
            None => None,
        }
    }

    /// This refusal by the field that starts at a bit. Only 1, 4 and 5 show it.
    #[inline]
    pub const fn at(self, bit: u32) -> Refusal {
        match self.code() {
            code @ (1 | 4 | 5) => Refusal::new(bit << 8 | code as u32),
            _ => self,
        }
    }

    /// The number, 1 to 11.
    #[inline]
    pub const fn code(self) -> u8 {
        self.0.get() as u8
    }

    /// The first bit of the field at fault, counted from the message's start; 0 where no field is.
    #[inline]
    pub const fn bit(self) -> u32 {
        self.0.get() >> 8
    }

    fn words(self) -> &'static str {
        match self.code() {
            1 => "the size does not fit",
            2 => "not handled",
            3 => "wrong checksum",
            4 => "outside its range",
            5 => "padding that is not zero",
            6 => "too little room",
            7 => "contradicts a packet that the desk holds",
            8 => "all places of the desk are taken",
            9 => "the notice is not complete",
            10 => "no such field, or it decides the layout",
            11 => "no notice of that number is open",
            _ => "no call refuses by this number",
        }
    }
}

/// As in "4 at bit 94: outside its range", and "6: too little room" where there is no bit to show.
impl fmt::Display for Refusal {
    fn fmt(&self, f: &mut fmt::Formatter) -> fmt::Result {
        match self.bit() {
            0 => write!(f, "{}: {}", self.code(), self.words()),
            bit => write!(f, "{} at bit {bit}: {}", self.code(), self.words()),
        }
    }
}

impl fmt::Debug for Refusal {
    fn fmt(&self, f: &mut fmt::Formatter) -> fmt::Result {
        f.debug_struct("Refusal").field("code", &self.code()).field("bit", &self.bit()).finish()
    }
}

impl Error for Refusal {}

/// What a call answers in C: 0 where it is accepted, else the refusal's number and 256 times its bit.
#[inline]
pub fn answer(result: Result<(), Refusal>) -> u32 {
    result.map_or_else(|Refusal(answer)| answer.get(), |()| 0)
}
