//! The packet desk: the greatest notice, taken in packet by packet and asked for.

use super::{Rounds, Row};
use bellnewt::notice::Notice;
use paper::packet;
use record::{Packet, Place, ENGLISH};
use std::hint::black_box;
use trial::family::desk::Calls;
use trial::family::{Paper, Proved};
use trial::inputs::Random;

pub const ACCEPT: &str = "desk accept";
pub const ASK: &str = "desk ask";

/// How many notices a round takes in: few, so that all of them stay near the processor.
const NOTICES: usize = 10;
/// How many times a round asks, and for which.
const ASKS: usize = 100;
const NUMBER: u8 = 7;

pub fn rows() -> Vec<Row> {
    vec![
        Row {
            name: ACCEPT,
            messages: NOTICES * Place::PACKETS,
            rounds: Box::new(|| Rounds { proved: accept::<Proved>(), paper: accept::<Paper>() }),
        },
        Row {
            name: ASK,
            messages: ASKS,
            rounds: Box::new(|| Rounds { proved: ask::<Proved>(), paper: ask::<Paper>() }),
        },
    ]
}

/// The 63 packets of a notice of 12,978 bytes.
fn packets(random: &mut Random, number: u8) -> Vec<Vec<u8>> {
    let content = random.bytes(Notice::GREATEST);
    let packet = |own: usize| {
        let mut packet = vec![0; Packet::HEAD + Packet::CONTENT];
        packet::split(&mut packet, &content, ENGLISH, number, own).expect("a packet of the notice");
        packet
    };
    (0..Place::PACKETS).map(packet).collect()
}

fn accept_all<C: Calls>(places: &mut [C::Cell], store: &mut [u8], packets: &[Vec<u8>]) {
    for packet in packets {
        let mut again = 0;
        assert_eq!(C::accept(places, store, black_box(packet), &mut again), 0, "the packets are good");
        black_box(again);
    }
}

/// Takes notices in, one after another. Each is dropped before the next comes, which is one call in 64.
fn accept<C: Calls + 'static>() -> Box<dyn FnMut()> {
    let random = &mut Random::new(1, ACCEPT, 0);
    let notices: Vec<_> = (0..NOTICES as u8).map(|number| (number, packets(random, number))).collect();
    let (mut places, mut store) = (C::places(&[0; Place::ROW]), vec![0; Place::STORE]);
    Box::new(move || {
        for (number, packets) in &notices {
            accept_all::<C>(&mut places, &mut store, packets);
            assert_eq!(C::drop(&mut places, &store, *number), 0, "the notice is open");
            black_box(&mut store);
        }
    })
}

/// Asks for a complete notice. That clears its place's mark alone, so the places are all that is put back.
fn ask<C: Calls + 'static>() -> Box<dyn FnMut()> {
    let (mut places, mut store) = (C::places(&[0; Place::ROW]), vec![0; Place::STORE]);
    let packets = packets(&mut Random::new(1, ASK, 0), NUMBER);
    accept_all::<C>(&mut places, &mut store, &packets);
    let complete = places.clone();
    let (mut notice, mut missing) = (vec![0; Notice::GREATEST], vec![0; Place::MISSING]);
    Box::new(move || {
        for _ in 0..ASKS {
            let (mut count, mut language) = (0, 0);
            places.copy_from_slice(&complete);
            let store = black_box(&store);
            let code = C::ask(&mut places, store, NUMBER, &mut notice, &mut missing, &mut count, &mut language);
            assert_eq!((code, count), (0, Notice::GREATEST), "the notice is complete");
            black_box(&mut notice);
        }
    })
}
