//! The sample day log, samples/day.log. `cargo run --release --offline --bin sample` in
//! rust/ writes it and its listing.

use crate::inputs::daylog::{record, AIS, DISTRESS, PACKET, SERIAL};
use crate::numbers::ais::{with_bytes, AREAS, WARNINGS};
use crate::numbers::distress::{example_with_longitude, EXAMPLE};
use crate::numbers::notice::{BARE, CHINESE_NOTICE, WARNING};
use crate::numbers::packet::{packet, HEAD, LAST_HEAD};
use crate::numbers::serial::{CHECK, CHECK_AS_PRINTED, REQUEST};
use paper::serial::Kind;
use paper::{distress, serial};
use record::{Report, Txhz, Txxx};

pub const LOG: &str = concat!(env!("CARGO_MANIFEST_DIR"), "/../../samples/day.log");
pub const LISTING: &str = concat!(env!("CARGO_MANIFEST_DIR"), "/../../samples/day.txt");

/// Every field that has a "none" is none.
const NONE: Report = Report {
    mmsi: 0,
    longitude: 10_860_000,
    latitude: 5_460_000,
    day: 0,
    hour: 24,
    minute: 60,
    speed: 0,
    course: 360,
    kind: 0,
};

/// Every field at the far end of its range.
const FAR: Report = Report {
    mmsi: 999_999_999,
    longitude: -10_800_000,
    latitude: -5_400_000,
    day: 31,
    hour: 23,
    minute: 59,
    speed: 126,
    course: 359,
    kind: 9,
};

const MESSAGE: Txxx = Txxx { address: 131_258, class: 0x60, sender: 200_001, hour: 23, minute: 59, bits: 12, mark: 0 };
const MESSAGE_CONTENT: [u8; 2] = [0x12, 0x30];

const RECEIPT: Txhz = Txhz { address: 131_258, receiver: 200_001, count: 2 };
const RECEIPTS: [u8; Txhz::RECEIPTS] = [14, 5, 14, 7, 23, 59, 0, 1, 0, 0, 0, 0, 0, 0, 0, 0, 0, 0, 0, 0];

/// The bytes of a good record.
fn frame<F: Kind>(record: &F, run: &[u8]) -> Vec<u8> {
    let mut frame = vec![0; F::BARE + run.len()];
    serial::write(&mut frame, record, run).expect("a good record");
    frame
}

/// A frame with another byte at a place, sealed anew.
fn with_byte(frame: &[u8], at: usize, byte: u8) -> Vec<u8> {
    let mut frame = frame.to_vec();
    frame[at] = byte;
    serial::seal(&mut frame);
    frame
}

/// Serial frames of every kind and every answer. The first two are those of 01, "Day log listing".
fn frames() -> [Vec<u8>; 13] {
    let (message, receipt) = (frame(&MESSAGE, &MESSAGE_CONTENT), frame(&RECEIPT, &RECEIPTS));
    let query = with_byte(&REQUEST, 10, 0x66);
    let password_express = with_byte(&REQUEST, 10, 0x43);
    let other_letters = with_byte(&CHECK, 1, b'D');
    let a_byte_for_17_bits = with_byte(&REQUEST, 15, 17);
    let minute_60 = with_byte(&message, 15, 60);
    let message_fill = with_byte(&message, 19, 0x31);
    let receipt_past_the_count = with_byte(&receipt, 33, 1);
    [
        CHECK.to_vec(),
        CHECK_AS_PRINTED.to_vec(),
        REQUEST.to_vec(),
        message,
        receipt,
        REQUEST[..19].to_vec(),
        a_byte_for_17_bits,
        other_letters,
        query,
        password_express,
        minute_60,
        message_fill,
        receipt_past_the_count,
    ]
}

/// Distress reports of every answer.
fn reports() -> [Vec<u8>; 9] {
    let [none, far] = [NONE, FAR].map(|report| distress::message(&report).expect("a good report"));
    let past_180_degrees = example_with_longitude([0x52, 0x65, 0xC0, 0x80]);
    [
        EXAMPLE.to_vec(),
        none.to_vec(),
        far.to_vec(),
        [&[0xBD, 0xC2], &EXAMPLE[2..]].concat(),
        past_180_degrees.to_vec(),
        [&EXAMPLE[..16], &[EXAMPLE[16] | 1]].concat(),
        EXAMPLE[..16].to_vec(),
        [&EXAMPLE[..], &[0]].concat(),
        Vec::new(),
    ]
}

/// AIS messages of every type, shape and answer.
fn messages() -> [Vec<u8>; 16] {
    let [cyclone, gale, waves, fog, surge] = WARNINGS.map(|(_, bytes)| bytes.to_vec());
    let [circle, rectangle] = AREAS.map(|(_, bytes)| bytes.to_vec());
    let type_6 = with_bytes(&gale, &[(7, 0x67)]);
    let message_1 = with_bytes(&gale, &[(0, 0x04)]);
    let gale_fill = with_bytes(&gale, &[(16, 0x01)]);
    let shape_3 = with_bytes(&circle, &[(11, 0x1D)]);
    let area_kind_15 = with_bytes(&circle, &[(11, 0xF5)]);
    [
        cyclone,
        gale.clone(),
        waves,
        fog,
        surge,
        circle.clone(),
        rectangle,
        gale[..22].to_vec(),
        [&gale[..], &[0]].concat(),
        circle[..30].to_vec(),
        type_6,
        message_1,
        shape_3[..23].to_vec(),
        area_kind_15,
        gale_fill,
        Vec::new(),
    ]
}

/// Packets of every answer: three that hold a whole notice each, the last of 63, and refused ones.
fn packets() -> [Vec<u8>; 12] {
    let english = [0xE1, 0x30, 0x80, 0x40];
    let bare = packet(HEAD, &BARE);
    let long = packet(LAST_HEAD, &[0x20; 207]);
    let other_type = with_bytes(&bare, &[(0, 0xE2)]);
    let version_2 = with_bytes(&bare, &[(1, 0x40)]);
    let total_0 = with_bytes(&bare, &[(3, 0x00)]);
    let past_the_total = with_bytes(&bare, &[(3, 0x41)]);
    [
        bare,
        packet(HEAD, &CHINESE_NOTICE),
        packet(english, &WARNING),
        packet(LAST_HEAD, &[0x20; 206]),
        packet(HEAD, &[0x20]),
        packet(HEAD, &[]),
        other_type,
        version_2,
        long,
        total_0,
        past_the_total,
        Vec::new(),
    ]
}

/// Serial frames, packets, distress reports, AIS messages, records of other kinds, and a cut record at the end.
pub fn day_log() -> Vec<u8> {
    let others = [record(5, &packet(HEAD, &BARE)), record(0x0103, &EXAMPLE), record(DISTRESS, &EXAMPLE)[..10].to_vec()];
    let frames = frames().map(|body| record(SERIAL, &body));
    let packets = packets().map(|body| record(PACKET, &body));
    let reports = reports().map(|body| record(DISTRESS, &body));
    let messages = messages().map(|body| record(AIS, &body));
    [frames.concat(), packets.concat(), reports.concat(), messages.concat(), others.concat()].concat()
}
