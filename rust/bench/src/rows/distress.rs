//! The distress report and its sentence.

use super::{row, Correction, Row, Scratch};
use paper::distress;
use record::Report;
use trial::family::distress::Calls;
use trial::family::{Paper, Proved};
use trial::inputs::{distress as inputs, Random};

type Message = [u8; Report::BYTES];

#[derive(Clone)]
struct Sentence {
    bytes: [u8; 60],
    size: usize,
}

const GOOD: &str = "a good report";

pub fn rows() -> Vec<Row> {
    vec![
        row("distress read", message, read::<Proved>, read::<Paper>),
        row("distress write", inputs::good_report, write::<Proved>, write::<Paper>),
        row("distress correct", correction, correct::<Proved>, correct::<Paper>),
        row("sentence read", sentence, read_sentence::<Proved>, read_sentence::<Paper>),
        row("sentence write", addressed, write_sentence::<Proved>, write_sentence::<Paper>),
    ]
}

fn message(random: &mut Random) -> Message {
    distress::message(&inputs::good_report(random)).expect(GOOD)
}

fn correction(random: &mut Random) -> Correction<Message> {
    let correct = |message: &mut Message, field, value| distress::correct(message, field, value);
    Correction::accepted(message(random), || inputs::correction(random), correct)
}

fn addressed(random: &mut Random) -> (u32, Report) {
    (inputs::good_address(random), inputs::good_report(random))
}

fn sentence(random: &mut Random) -> Sentence {
    let (address, report) = addressed(random);
    let mut bytes = [0; 60];
    let size = distress::write_sentence(&mut bytes, address, &report).expect(GOOD);
    Sentence { bytes, size }
}

fn read<C: Calls>(message: &mut Message, scratch: &mut Scratch) -> u32 {
    C::read(message, &mut scratch.row)
}

fn write<C: Calls>(report: &mut Report, scratch: &mut Scratch) -> u32 {
    C::write(&mut scratch.bytes, report)
}

fn correct<C: Calls>(correction: &mut Correction<Message>, _: &mut Scratch) -> u32 {
    C::correct(&mut correction.message, correction.field, correction.value)
}

fn read_sentence<C: Calls>(sentence: &mut Sentence, scratch: &mut Scratch) -> u32 {
    C::read_sentence(&sentence.bytes[..sentence.size], &mut scratch.row)
}

fn write_sentence<C: Calls>((address, report): &mut (u32, Report), scratch: &mut Scratch) -> u32 {
    C::write_sentence(&mut scratch.bytes, &mut scratch.size, *address, report)
}
