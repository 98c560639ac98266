//! Case I, refusals whose order is easily mistaken, and the splitter at its bounds.

use super::ais::with_bytes;
use super::at;
use super::notice::BARE;
use crate::family::packet::Calls;
use crate::family::{Paper, Proved};
use crate::harness::Tally;
use bellnewt::notice::Notice;
use record::{Packet, Refusal, CHINESE, ENGLISH};

/// Case I.
pub const HEAD: [u8; Packet::HEAD] = [0xE1, 0x20, 0x70, 0x40];
pub const HEAD_RECORD: Packet = Packet { language: CHINESE, number: 7, total: 1, own: 0 };

/// English, number 255, the last of 63.
pub const LAST_HEAD: [u8; Packet::HEAD] = [0xE1, 0x3F, 0xFF, 0xFE];
const LAST_RECORD: Packet = Packet { language: ENGLISH, number: 255, total: 63, own: 62 };

/// A packet of a head and a content.
pub fn packet(head: [u8; Packet::HEAD], content: &[u8]) -> Vec<u8> {
    [&head, content].concat()
}

pub fn run(tally: &mut Tally) {
    cases::<Proved>("proved", tally);
    cases::<Paper>("paper", tally);
    wrapped(tally);
}

fn cases<C: Calls>(who: &str, tally: &mut Tally) {
    good::<C>(&format!("{who}: case I"), HEAD, &HEAD_RECORD, &BARE, tally);
    good::<C>(&format!("{who}: the last of 63"), LAST_HEAD, &LAST_RECORD, &[0xFF; Packet::CONTENT], tally);
    refused::<C>(who, tally);
    not_written::<C>(who, tally);
    corrections::<C>(who, tally);
    splits::<C>(who, tally);
    let followed = (0..=255).all(|number: u8| u16::from(C::next_number(number)) == (u16::from(number) + 1) % 256);
    tally.check(followed, format_args!("{who}: the number after each"));
}

/// A good packet, read and written back byte for byte.
fn good<C: Calls>(case: &str, head: [u8; Packet::HEAD], record: &Packet, content: &[u8], tally: &mut Tally) {
    let packet = packet(head, content);
    let mut row = [7; Packet::ROW];
    let code = C::read(&packet, &mut row);
    let numbers = [record.language, record.number, record.total, record.own].map(i64::from);
    let due = [&numbers[..], &[4, content.len() as i64]].concat();
    tally.same(&format!("{case} read"), (code, &row[..]), (0, &due[..]));

    let mut bytes = vec![0; packet.len()];
    let code = C::write(&mut bytes, record, content);
    tally.same(&format!("{case} written"), (code, bytes), (0, packet));
}

fn refused<C: Calls>(who: &str, tally: &mut Tally) {
    let good = packet(HEAD, &[0x20]);
    let long = packet(HEAD, &[0x20; 207]);
    for (case, packet, due) in [
        ("no bytes", Vec::new(), 1),
        ("4 bytes of another type", with_bytes(&good, &[(0, 0xE2)])[..4].to_vec(), 1),
        ("another type", with_bytes(&good, &[(0, 0xE2)]), 2),
        ("version 0", with_bytes(&good, &[(1, 0x00)]), 2),
        ("211 bytes of version 2", with_bytes(&long, &[(1, 0x40)]), 2),
        ("211 bytes", long, 1),
        ("total 0", with_bytes(&good, &[(3, 0x00)]), at(4, 20)),
        ("own number 1 of 1", with_bytes(&good, &[(3, 0x41)]), at(4, 26)),
    ] {
        let mut row = [7; Packet::ROW];
        let code = C::read(&packet, &mut row);
        tally.same(&format!("{who}: {case}"), (code, row), (due, [7; Packet::ROW]));
    }
}

fn not_written<C: Calls>(who: &str, tally: &mut Tally) {
    let none_of_none = Packet { total: 0, ..HEAD_RECORD };
    for (case, record, content, room, due) in [
        ("language 2 before no content", Packet { language: 2, ..HEAD_RECORD }, 0, 0, at(4, 11)),
        ("total 0", none_of_none, 1, 5, at(4, 20)),
        ("total 64", Packet { total: 64, ..HEAD_RECORD }, 1, 5, at(4, 20)),
        ("own number 1 of 1", Packet { own: 1, ..HEAD_RECORD }, 1, 5, at(4, 26)),
        ("no content before no room", HEAD_RECORD, 0, 0, 1),
        ("207 bytes of content", HEAD_RECORD, 207, 211, 1),
        ("a byte too little", HEAD_RECORD, 206, 209, 6),
    ] {
        let mut buf = vec![7; room];
        let code = C::write(&mut buf, &record, &vec![0x20; content]);
        tally.same(&format!("{who}: {case}, written"), (code, buf), (due, vec![7; room]));
    }
}

fn corrections<C: Calls>(who: &str, tally: &mut Tally) {
    let last = packet(LAST_HEAD, &[0x20]);
    for (field, value, due, others) in [
        (Packet::LANGUAGE, 0, 0, &[(1, 0x2F)][..]),
        (Packet::LANGUAGE, 2, at(4, 11), &[]),
        (Packet::NUMBER, 0, 0, &[(1, 0x30), (2, 0x0F)]),
        (Packet::NUMBER, 256, at(4, 12), &[]),
        (Packet::TOTAL, 62, at(4, 26), &[]),
        (Packet::TOTAL, 64, at(4, 20), &[]),
        (Packet::OWN, 0, 0, &[(3, 0xC0)]),
        (Packet::OWN, 63, at(4, 26), &[]),
        (0, 0xE1, 10, &[]),
        (1, 1, 10, &[]),
        (6, 0, 10, &[]),
    ] {
        let mut packet = last.clone();
        let code = C::correct(&mut packet, field, value);
        let case = format!("{who}: a packet's field {field} corrected to {value}");
        tally.same(&case, (code, packet), (due, with_bytes(&last, others)));
    }
}

/// Contents of a size, a packet of them, and how many bytes it then has, or the refusal.
fn splits<C: Calls>(who: &str, tally: &mut Tally) {
    for (language, size, packet, due) in [
        (ENGLISH, 1, 0, Ok(([0xE1, 0x30, 0x70, 0x40], 5))),
        (CHINESE, 206, 0, Ok((HEAD, 210))),
        (CHINESE, 207, 0, Ok(([0xE1, 0x20, 0x70, 0x80], 210))),
        (CHINESE, 207, 1, Ok(([0xE1, 0x20, 0x70, 0x81], 5))),
        (CHINESE, Notice::GREATEST, 62, Ok(([0xE1, 0x20, 0x7F, 0xFE], 210))),
        (CHINESE, Notice::GREATEST, 63, Err(4)),
        (CHINESE, Notice::GREATEST + 1, 0, Err(1)),
        (CHINESE, 0, 0, Err(1)),
        (CHINESE, 206, 1, Err(4)),
        (CHINESE, 207, 257, Err(4)),
        (2, 0, 0, Err(4)),
    ] {
        let content: Vec<u8> = (0..size).map(|at| at as u8).collect();
        let mut buf = vec![7; 210];
        let code = C::split(&mut buf, &content, language, 7, packet);
        let mut due_buf = vec![7; 210];
        if let Ok((head, bytes)) = due {
            due_buf[..4].copy_from_slice(&head);
            due_buf[4..bytes].copy_from_slice(&content[206 * packet..][..bytes - 4]);
        }
        let case = format!("{who}: packet {packet} of {size} bytes in language {language}");
        tally.same(&case, (code, buf), (due.err().unwrap_or(0), due_buf));
    }
}

/// The wrapper's calls over records.
fn wrapped(tally: &mut Tally) {
    use bellnewt::packet::{correct, next_number, packets, read, write};
    let mut bytes = packet(HEAD, &BARE);
    tally.same("wrapper: case I", read(&bytes), Ok((HEAD_RECORD, &BARE[..])));
    let content = read(&bytes).map_or(&[][..], |(_, content)| content);
    tally.check(std::ptr::eq(content, &bytes[4..]), "wrapper: the content is a part of the packet");
    tally.same("wrapper: no packet", read(&[]), Err(Refusal::SIZE));
    tally.same("wrapper: a packet's room", write(&mut [0; 4], &HEAD_RECORD, &BARE), Err(Refusal::ROOM));
    tally.same("wrapper: number corrected", correct(&mut bytes, Packet::NUMBER, 8), Ok(()));
    let numbered = Packet { number: 8, ..HEAD_RECORD };
    tally.same("wrapper: number read", read(&bytes), Ok((numbered, &BARE[..])));
    tally.same("wrapper: the number after 255", next_number(255), 0);

    let split = packets(&[0x41; 300], ENGLISH, 9).unwrap_or_default();
    let read_back: Vec<_> = split.iter().map(|packet| read(packet)).collect();
    let due =
        |own: u8, bytes: usize| Ok((Packet { language: ENGLISH, number: 9, total: 2, own }, &[0x41; 206][..bytes]));
    tally.same("wrapper: all packets", read_back, vec![due(0, 206), due(1, 94)]);
    tally.same("wrapper: packets of no content", packets(&[], ENGLISH, 9), Err(Refusal::SIZE));
    tally.same("wrapper: packets in language 2", packets(&[], 2, 9), Err(Refusal::RANGE));
}
