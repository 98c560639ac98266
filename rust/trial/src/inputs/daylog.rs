//! Day logs, good and damaged.

use super::{ais, distress, packet, serial, Random};

pub const SERIAL: u16 = 1;
pub const PACKET: u16 = 2;
pub const DISTRESS: u16 = 3;
pub const AIS: u16 = 4;

const GREATEST: usize = 256;
const HEAD: usize = 4;

/// A record of any kind around a body.
pub fn record(kind: u16, body: &[u8]) -> Vec<u8> {
    let length = (HEAD + body.len()) as u16;
    [&length.to_le_bytes(), &kind.to_le_bytes(), body].concat()
}

/// A record whose length is good: a body of its kind, or any bytes.
fn good_record(random: &mut Random) -> Vec<u8> {
    let (own, body) = match random.below(4) {
        0 => (SERIAL, serial::any_frame(random)),
        1 => (PACKET, packet::packet(random)),
        2 => (DISTRESS, distress::message(random)),
        _ => (AIS, ais::any_message(random)),
    };
    let kind = match random.below(8) {
        0 => random.word() as u16,
        1 => random.below(8) as u16,
        // The kinds' low byte with a high byte that isn't zero: no kind at all.
        2 => random.below(8) as u16 | 1 << (8 + random.below(8)),
        _ => own,
    };
    let mut body = match random.below(8) {
        0 => {
            let size = random.below(GREATEST - HEAD + 1);
            random.bytes(size)
        }
        1 => Vec::new(),
        _ => body,
    };
    body.truncate(GREATEST - HEAD);
    record(kind, &body)
}

/// A log of so many good records.
pub fn good_log(random: &mut Random, records: usize) -> Vec<u8> {
    (0..records).flat_map(|_| good_record(random)).collect()
}

/// A log of a few records that may end in a broken one: a bad length, a cut, or a few bytes.
pub fn log(random: &mut Random) -> Vec<u8> {
    let records = random.below(40);
    let mut log = good_log(random, records);
    match random.below(6) {
        0 => {
            let mut bad = good_record(random);
            let length = random.pick(&[0, 1, 2, 3, 257, 258, 0x0400, 0x1500, 0xFFFF]);
            bad[..2].copy_from_slice(&u16::to_le_bytes(length));
            log.extend(bad);
            log.extend(good_log(random, 3));
        }
        1 => log.truncate(random.below(log.len() + 1)),
        2 => {
            let left = 1 + random.below(3);
            log.extend(random.bytes(left));
        }
        3 => log.extend(record(random.pick(&[SERIAL, PACKET, DISTRESS, AIS]), &[0; GREATEST - HEAD])),
        _ => (),
    }
    log
}
