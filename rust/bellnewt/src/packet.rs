//! The packet of a notice, and the splitter that makes packets.
//!
//! ```
//! use bellnewt::packet::{self, ENGLISH};
//!
//! // 300 bytes take two packets: 206 bytes, and the other 94.
//! let packets = packet::packets(&[0x41; 300], ENGLISH, 7)?;
//! let (last, content) = packet::read(&packets[1])?;
//! assert_eq!((last.number, last.total, last.own, content.len()), (7, 2, 1, 94));
//! # Ok::<(), bellnewt::Refusal>(())
//! ```

use crate::call::answer;
use record::Refusal;

#[doc(inline)]
pub use record::{Packet, CHINESE, ENGLISH};

extern "C" {
    fn bellnewt_packet_read(s: *const u8, len: usize, row: *mut i64, row_len: usize) -> u32;
    fn bellnewt_packet_write(
        buf: *mut u8,
        buf_len: usize,
        content: *const u8,
        content_len: usize,
        language: u8,
        number: u8,
        total: u8,
        own: u8,
    ) -> u32;
    fn bellnewt_packet_correct(s: *mut u8, len: usize, field: usize, value: u64) -> u32;
    fn bellnewt_split(
        buf: *mut u8,
        buf_len: usize,
        content: *const u8,
        content_len: usize,
        language: u8,
        number: u8,
        packet: usize,
    ) -> u32;
    fn bellnewt_next_number(number: u8) -> u8;
}

/// Reads a packet into the first six entries of a row, as in C: its numbers, where its content starts, and how many
/// bytes that has.
#[inline]
pub fn read_row(packet: &[u8], row: &mut [i64]) -> Result<(), Refusal> {
    // SAFETY: see `call`.
    answer(unsafe { bellnewt_packet_read(packet.as_ptr(), packet.len(), row.as_mut_ptr(), row.len()) })
}

/// Reads a packet: its record, and its content as a part of the packet.
pub fn read(packet: &[u8]) -> Result<(Packet, &[u8]), Refusal> {
    let mut row = [0; Packet::ROW];
    read_row(packet, &mut row)?;
    let [.., start, bytes] = row.map(|entry| entry as usize);
    Ok((Packet::of_row(&row), &packet[start..start + bytes]))
}

/// Writes a packet into the front of a buffer. Bytes past it stay as they were.
#[inline]
pub fn write(buf: &mut [u8], record: &Packet, content: &[u8]) -> Result<(), Refusal> {
    // SAFETY: see `call`.
    answer(unsafe {
        bellnewt_packet_write(
            buf.as_mut_ptr(),
            buf.len(),
            content.as_ptr(),
            content.len(),
            record.language,
            record.number,
            record.total,
            record.own,
        )
    })
}

/// Corrects a field of a packet in place. [`Packet`] has the field numbers.
#[inline]
pub fn correct(packet: &mut [u8], field: usize, value: u64) -> Result<(), Refusal> {
    // SAFETY: see `call`.
    answer(unsafe { bellnewt_packet_correct(packet.as_mut_ptr(), packet.len(), field, value) })
}

/// Writes one packet of a content, counted from 0, into the front of a buffer. Bytes past it stay as they were.
#[inline]
pub fn split(buf: &mut [u8], content: &[u8], language: u8, number: u8, packet: usize) -> Result<(), Refusal> {
    // SAFETY: see `call`.
    answer(unsafe {
        bellnewt_split(buf.as_mut_ptr(), buf.len(), content.as_ptr(), content.len(), language, number, packet)
    })
}

/// All packets of a content of 1 to 12,978 bytes.
pub fn packets(content: &[u8], language: u8, number: u8) -> Result<Vec<Vec<u8>>, Refusal> {
    // A content without bytes has none, which the splitter itself refuses.
    let total = content.len().div_ceil(Packet::CONTENT).max(1);
    let packet = |own: usize| {
        let bytes = (content.len() - Packet::CONTENT * own).min(Packet::CONTENT);
        let mut packet = vec![0; Packet::HEAD + bytes];
        split(&mut packet, content, language, number, own).map(|()| packet)
    };
    (0..total).map(packet).collect()
}

/// The message number that follows. After 255 comes 0.
#[inline]
pub fn next_number(number: u8) -> u8 {
    // SAFETY: see `call`; the call is lent nothing.
    unsafe { bellnewt_next_number(number) }
}
