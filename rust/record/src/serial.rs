//! The serial frames.

use crate::SHORT;
use std::fmt::Debug;

/// A kind of serial frame: [`Gljc`], [`Txsq`], [`Txxx`] or [`Txhz`].
///
/// A frame's record is the numbers of its struct. Beside them a call is lent a run of bytes: the content of TXSQ and
/// TXXX, the five receipts of TXHZ. GLJC's run is empty.
pub trait Frame: Copy + PartialEq + Debug {
    /// The four letters that name the kind.
    const LETTERS: &'static str;
    /// A frame's bytes without its run.
    const BARE: usize;
    /// Where the run starts in a frame.
    const RUN: usize;
    /// How many entries a frame takes in a row.
    const ROW: usize;

    /// The own address's field number, the same in every kind: 24 bits. The others are with their struct.
    const ADDRESS: usize = 3;

    /// The numbers that a row opens with. An entry too wide for its field's type keeps its low bits.
    ///
    /// # Panics
    ///
    /// If the row has fewer entries than the record has numbers.
    fn of_row(row: &[i64]) -> Self;
}

/// The power check.
#[derive(Clone, Copy, PartialEq, Eq, Debug)]
pub struct Gljc {
    /// The own address, 0 to 2,097,151.
    pub address: u32,
    /// Minutes, 0 to 255.
    pub minutes: u8,
}

impl Gljc {
    /// The minutes' field number: 8 bits.
    pub const MINUTES: usize = 4;
}

impl Frame for Gljc {
    const LETTERS: &'static str = "GLJC";
    const BARE: usize = 12;
    const RUN: usize = 11;
    const ROW: usize = 2;

    #[inline]
    fn of_row(row: &[i64]) -> Gljc {
        let &[address, minutes] = row.first_chunk().expect(SHORT);
        Gljc { address: address as u32, minutes: minutes as u8 }
    }
}

/// The request to send. Its run is the content: the bit length rounded up to bytes, unused low bits zero.
#[derive(Clone, Copy, PartialEq, Eq, Debug)]
pub struct Txsq {
    /// The own address, 0 to 2,097,151.
    pub address: u32,
    /// 0 express, 1 ordinary.
    pub category: u8,
    /// 0 text, 1 code.
    pub mode: u8,
    /// 1 if a password is to be recognised, which needs category 1.
    pub password: u8,
    /// The receiver's address, 0 to 2,097,151.
    pub receiver: u32,
    /// The content's length in bits.
    pub bits: u16,
    /// The answer; 0 where `password` is 0.
    pub answer: u8,
}

impl Txsq {
    /// The category's field number: 2 bits.
    pub const CATEGORY: usize = 5;
    /// The mode's field number: 1 bit.
    pub const MODE: usize = 6;
    /// The password's field number: 1 bit.
    pub const PASSWORD: usize = 7;
    /// The receiver's field number: 24 bits.
    pub const RECEIVER: usize = 8;
    /// The answer's field number: 8 bits.
    pub const ANSWER: usize = 10;
}

impl Frame for Txsq {
    const LETTERS: &'static str = "TXSQ";
    const BARE: usize = 18;
    const RUN: usize = 17;
    const ROW: usize = 9;

    #[inline]
    fn of_row(row: &[i64]) -> Txsq {
        let &[address, category, mode, password, receiver, bits, answer] = row.first_chunk().expect(SHORT);
        Txsq {
            address: address as u32,
            category: category as u8,
            mode: mode as u8,
            password: password as u8,
            receiver: receiver as u32,
            bits: bits as u16,
            answer: answer as u8,
        }
    }
}

/// A message received. Its run is the content, as in TXSQ.
#[derive(Clone, Copy, PartialEq, Eq, Debug)]
pub struct Txxx {
    /// The own address, 0 to 2,097,151.
    pub address: u32,
    /// The class of the message, which is carried as it is.
    pub class: u8,
    /// The sender's address, 0 to 2,097,151.
    pub sender: u32,
    /// The hour, 0 to 23.
    pub hour: u8,
    /// The minute, 0 to 59.
    pub minute: u8,
    /// The content's length in bits, at most 1,680.
    pub bits: u16,
    /// What the receiver found of the message's CRC.
    pub mark: u8,
}

impl Txxx {
    /// The class's field number: 8 bits.
    pub const CLASS: usize = 4;
    /// The sender's field number: 24 bits.
    pub const SENDER: usize = 5;
    /// The hour's field number: 8 bits.
    pub const HOUR: usize = 6;
    /// The minute's field number: 8 bits.
    pub const MINUTE: usize = 7;
    /// The mark's field number: 8 bits.
    pub const MARK: usize = 11;
}

impl Frame for Txxx {
    const LETTERS: &'static str = "TXXX";
    const BARE: usize = 20;
    const RUN: usize = 18;
    const ROW: usize = 9;

    #[inline]
    fn of_row(row: &[i64]) -> Txxx {
        let &[address, class, sender, hour, minute, bits, mark] = row.first_chunk().expect(SHORT);
        Txxx {
            address: address as u32,
            class: class as u8,
            sender: sender as u32,
            hour: hour as u8,
            minute: minute as u8,
            bits: bits as u16,
            mark: mark as u8,
        }
    }
}

/// The receipts of messages sent.
///
/// Its run is all five receipts, four bytes each: the hour and minute of sending, then those of the receipt. Receipts
/// past the count are zero.
#[derive(Clone, Copy, PartialEq, Eq, Debug)]
pub struct Txhz {
    /// The own address, 0 to 2,097,151.
    pub address: u32,
    /// The receiver's address, 0 to 2,097,151.
    pub receiver: u32,
    /// How many receipts there are, 0 to 5.
    pub count: u8,
}

impl Txhz {
    /// The bytes of all five receipts.
    pub const RECEIPTS: usize = 20;

    /// The receiver's field number: 24 bits.
    pub const RECEIVER: usize = 4;
    /// The count's field number: 8 bits.
    pub const COUNT: usize = 5;
    /// The field number of the receipts' first byte: 8 bits. The other bytes follow it.
    pub const FIRST_RECEIPT: usize = 6;
}

impl Frame for Txhz {
    const LETTERS: &'static str = "TXHZ";
    const BARE: usize = 15;
    const RUN: usize = 14;
    const ROW: usize = 3 + Txhz::RECEIPTS;

    #[inline]
    fn of_row(row: &[i64]) -> Txhz {
        let &[address, receiver, count] = row.first_chunk().expect(SHORT);
        Txhz { address: address as u32, receiver: receiver as u32, count: count as u8 }
    }
}
