//! The packet and the splitter (01, "Notice and packet"; 000, 5.2.2.2).

use super::{narrow, need, notice};
use record::{Packet, Refusal};

const TYPE: u8 = 0xE1;
const VERSION: u8 = 1;

/// The bits that the fields start at.
const LANGUAGE: u32 = 11;
const NUMBER: u32 = 12;
const TOTAL: u32 = 20;
const OWN: u32 = 26;

/// Reads a packet: its numbers, and the content as a part of it.
#[inline]
pub fn read(packet: &[u8]) -> Result<(Packet, &[u8]), Refusal> {
    let &[kind, a, b, c, _] = packet.first_chunk().ok_or(Refusal::SIZE)?;
    need(kind == TYPE && a >> 5 == VERSION, Refusal::KIND)?;
    let (_, content) = packet.split_at(Packet::HEAD);
    need(content.len() <= Packet::CONTENT, Refusal::SIZE)?;
    let record = Packet { language: a >> 4 & 1, number: a << 4 | b >> 4, total: (b & 15) << 2 | c >> 6, own: c & 0x3F };
    judge(&record)?;
    Ok((record, content))
}

#[inline]
pub fn read_row(packet: &[u8], row: &mut [i64]) -> Result<(), Refusal> {
    let (record, content) = read(packet)?;
    let row: &mut [i64; Packet::ROW] = row.first_chunk_mut().ok_or(Refusal::ROOM)?;
    *row = [
        record.language.into(),
        record.number.into(),
        record.total.into(),
        record.own.into(),
        Packet::HEAD as i64,
        content.len() as i64,
    ];
    Ok(())
}

/// The fields stand in their ranges.
#[inline]
fn judge(record: &Packet) -> Result<(), Refusal> {
    need(record.language <= 1, Refusal::RANGE.at(LANGUAGE))?;
    need((1..=63).contains(&record.total), Refusal::RANGE.at(TOTAL))?;
    need(record.own < record.total, Refusal::RANGE.at(OWN))
}

/// The bytes before the content of a good packet.
#[inline]
fn head(record: &Packet) -> [u8; Packet::HEAD] {
    [
        TYPE,
        VERSION << 5 | record.language << 4 | record.number >> 4,
        record.number << 4 | record.total >> 2,
        record.total << 6 | record.own,
    ]
}

#[inline]
pub fn write(buf: &mut [u8], record: &Packet, content: &[u8]) -> Result<(), Refusal> {
    judge(record)?;
    need((1..=Packet::CONTENT).contains(&content.len()), Refusal::SIZE)?;
    let packet = buf.get_mut(..Packet::HEAD + content.len()).ok_or(Refusal::ROOM)?;
    packet[..Packet::HEAD].copy_from_slice(&head(record));
    packet[Packet::HEAD..].copy_from_slice(content);
    Ok(())
}

pub fn correct(packet: &mut [u8], field: usize, value: u64) -> Result<(), Refusal> {
    let (mut record, _) = read(packet)?;
    match field {
        Packet::LANGUAGE => record.language = narrow(value, 1, LANGUAGE)? as u8,
        Packet::NUMBER => record.number = narrow(value, 8, NUMBER)? as u8,
        Packet::TOTAL => record.total = narrow(value, 6, TOTAL)? as u8,
        Packet::OWN => record.own = narrow(value, 6, OWN)? as u8,
        _ => return Err(Refusal::FIELD),
    }
    judge(&record)?;
    packet[..Packet::HEAD].copy_from_slice(&head(&record));
    Ok(())
}

/// Makes the packet of that number, from 0 on, of a content.
#[inline]
pub fn split(buf: &mut [u8], content: &[u8], language: u8, number: u8, packet: usize) -> Result<(), Refusal> {
    need(language <= 1, Refusal::RANGE)?;
    need((1..=notice::GREATEST).contains(&content.len()), Refusal::SIZE)?;
    let mut parts = content.chunks(Packet::CONTENT);
    let total = parts.len() as u8;
    let part = parts.nth(packet).ok_or(Refusal::RANGE)?;
    write(buf, &Packet { language, number, total, own: packet as u8 }, part)
}

/// The message number that follows.
#[inline]
pub fn next_number(number: u8) -> u8 {
    if number == 255 {
        0
    } else {
        number + 1
    }
}
