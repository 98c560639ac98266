//! The packet and the splitter.

use super::{row, Correction, Row, Scratch};
use paper::packet;
use record::Packet;
use trial::family::packet::Calls;
use trial::family::{Paper, Proved};
use trial::inputs::packet::Split;
use trial::inputs::{packet as inputs, Random};

/// What is split: a content of two packets and a part of a third.
const CONTENT: usize = 500;

pub fn rows() -> Vec<Row> {
    vec![
        row("packet read", inputs::good_packet, read::<Proved>, read::<Paper>),
        row("packet write", inputs::good_record, write::<Proved>, write::<Paper>),
        row("packet correct", correction, correct::<Proved>, correct::<Paper>),
        row("split", |random| inputs::good_split(random, CONTENT), split::<Proved>, split::<Paper>),
    ]
}

fn correction(random: &mut Random) -> Correction<Vec<u8>> {
    let correct = |message: &mut Vec<u8>, field, value| packet::correct(message, field, value);
    Correction::accepted(inputs::good_packet(random), || inputs::correction(random), correct)
}

fn read<C: Calls>(packet: &mut impl AsRef<[u8]>, scratch: &mut Scratch) -> u32 {
    C::read(packet.as_ref(), &mut scratch.row)
}

fn write<C: Calls>((record, content): &mut (Packet, Vec<u8>), scratch: &mut Scratch) -> u32 {
    C::write(&mut scratch.bytes, record, content)
}

fn correct<C: Calls>(correction: &mut Correction<Vec<u8>>, _: &mut Scratch) -> u32 {
    C::correct(&mut correction.message, correction.field, correction.value)
}

fn split<C: Calls>(split: &mut Split, scratch: &mut Scratch) -> u32 {
    C::split(&mut scratch.bytes, &split.content, split.language, split.number, split.packet)
}
