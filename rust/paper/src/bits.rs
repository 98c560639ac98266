//! Numbers and bytes at any bit of a message.

use super::need;
use record::Refusal;
use std::slice::IterMut;

/// A part of a message that has a range: its width, its least and its most.
pub type Part = (u32, u32, u32);

/// What refuses parts that stand one behind another from a bit on: the first that the message is too short for, or that is
/// outside its range; none if all are good.
pub fn fault(message: &[u8], mut at: usize, parts: &[Part]) -> Option<Refusal> {
    for &(width, least, most) in parts {
        let end = at + width as usize;
        if end > 8 * message.len() {
            return Some(Refusal::SIZE.at(at as u32));
        }
        if !(least..=most).contains(&get(message, at, width)) {
            return Some(Refusal::RANGE.at(at as u32));
        }
        at = end;
    }
    None
}

/// The number that `width` bits from a bit on spell, 1 to 32 of them.
pub fn get(message: &[u8], at: usize, width: u32) -> u32 {
    let rest = &message[at / 8..];
    let window = rest.first_chunk().copied().unwrap_or_else(|| {
        let mut window = [0; 8];
        window[..rest.len()].copy_from_slice(rest);
        window
    });
    (u64::from_be_bytes(window) << (at % 8) >> (64 - width)) as u32
}

/// Makes `width` bits from a bit on spell a value that they can.
pub fn put(message: &mut [u8], at: usize, width: u32, value: u64) {
    let placed = |bits: u64| (bits << (64 - width) >> (at % 8)).to_be_bytes();
    let (mask, value) = (placed(u64::MAX), placed(value));
    for ((byte, mask), value) in message[at / 8..].iter_mut().zip(mask).zip(value) {
        *byte = *byte & !mask | value;
    }
}

/// Where a bit past the first byte stands: the byte before it, and how many bits from that byte's first on, 1 to 8. So
/// whole bytes lie in two that stand side by side, and what is left at the end in the last.
fn place(at: usize) -> (usize, usize) {
    let before = (at - 1) / 8;
    (before, at - 8 * before)
}

/// The whole bytes from a bit past the first byte on.
pub fn bytes_from(message: &[u8], at: usize) -> impl ExactSizeIterator<Item = u8> + '_ {
    let (before, shift) = place(at);
    let pairs = message[before..].iter().zip(&message[before + 1..]);
    pairs.map(move |(high, low)| (u16::from_be_bytes([*high, *low]) << shift >> 8) as u8)
}

/// The bits left behind those bytes are zero.
pub fn need_fill(message: &[u8], at: usize) -> Result<(), Refusal> {
    let (_, shift) = place(at);
    let is_zero = message.last().is_none_or(|last| u32::from(*last) << shift & 0xFF == 0);
    let bytes = (8 * message.len() - at) / 8;
    need(is_zero, Refusal::FILL.at((at + 8 * bytes) as u32))
}

/// Fills a message with numbers, one behind another.
pub struct Writer<'a> {
    free: IterMut<'a, u8>,
    /// The lowest `held` of these bits are not in the message yet.
    bits: u64,
    held: u32,
}

impl Writer<'_> {
    pub fn new(message: &mut [u8]) -> Writer<'_> {
        Writer { free: message.iter_mut(), bits: 0, held: 0 }
    }

    /// Puts a value into the next `width` bits, which can spell it.
    pub fn put(&mut self, width: u32, value: u32) {
        self.bits = self.bits << width | u64::from(value);
        self.held += width;
        while self.held >= 8 {
            self.held -= 8;
            self.next((self.bits >> self.held) as u8);
        }
    }

    fn next(&mut self, byte: u8) {
        *self.free.next().expect("the message has room for all numbers") = byte;
    }

    /// Ends the message by bytes and a fill of zeros.
    pub fn end(mut self, bytes: &[u8]) {
        let mut before = self.bits as u8;
        for (byte, place) in bytes.iter().zip(&mut self.free) {
            *place = (u16::from_be_bytes([before, *byte]) >> self.held) as u8;
            before = *byte;
        }
        if self.held > 0 {
            self.next(before << (8 - self.held));
        }
    }
}
