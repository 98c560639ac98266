//! The notice and its outline, and how the reading's time grows with the notice.

use super::{row, row_of, Correction, Row, Scratch, MESSAGES};
use bellnewt::notice::{Head, Notice};
use paper::notice;
use trial::family::notice::Calls;
use trial::family::{Paper, Proved};
use trial::inputs::{notice as inputs, Random};

/// A notice's bytes and its language.
#[derive(Clone, PartialEq)]
struct Message {
    bytes: Vec<u8>,
    language: u8,
}

/// What a notice is written from.
#[derive(Clone)]
struct Record {
    language: u8,
    head: Head,
    count: u8,
    areas: Vec<u32>,
    text: Vec<u8>,
}

/// The size of most rows: some areas and a text.
const USUAL: usize = 150;
const GREATEST: usize = Notice::GREATEST;

pub fn rows() -> Vec<Row> {
    vec![
        row("notice read", message::<USUAL>, read::<Proved>, read::<Paper>),
        row("notice write", record, write::<Proved>, write::<Paper>),
        row("notice correct", correction, correct::<Proved>, correct::<Paper>),
        row("outline", message::<USUAL>, outline::<Proved>, outline::<Paper>),
        row("read 100 bytes", message::<100>, read::<Proved>, read::<Paper>),
        row_of("read 1,000 bytes", MESSAGES / 10, message::<1_000>, read::<Proved>, read::<Paper>),
        row_of("read 12,978 bytes", MESSAGES / 100, message::<GREATEST>, read::<Proved>, read::<Paper>),
    ]
}

/// A good notice of that size. Its areas may need more, so others are tried till one fits.
fn draft_of(random: &mut Random, bytes: usize) -> inputs::Draft {
    loop {
        let draft = inputs::good_draft_of(random, bytes);
        if draft.bytes() == bytes {
            return draft;
        }
    }
}

fn message<const BYTES: usize>(random: &mut Random) -> Message {
    let draft = draft_of(random, BYTES);
    Message { bytes: draft.message(), language: draft.language }
}

fn record(random: &mut Random) -> Record {
    let draft = draft_of(random, USUAL);
    Record {
        language: draft.language,
        head: draft.head(),
        count: draft.count(),
        areas: draft.areas(),
        text: draft.text,
    }
}

fn correction(random: &mut Random) -> Correction<Message> {
    let draft = draft_of(random, USUAL);
    let message = Message { bytes: draft.message(), language: draft.language };
    let correct =
        |message: &mut Message, field, value| notice::correct(&mut message.bytes, message.language, field, value);
    Correction::accepted(message, || inputs::correction(random, &draft), correct)
}

fn read<C: Calls>(message: &mut Message, scratch: &mut Scratch) -> u32 {
    C::read(&message.bytes, message.language, &mut scratch.row, &mut scratch.areas, &mut scratch.text)
}

fn write<C: Calls>(record: &mut Record, scratch: &mut Scratch) -> u32 {
    C::write(&mut scratch.bytes, record.language, &record.head, record.count, &record.areas, &record.text)
}

fn correct<C: Calls>(correction: &mut Correction<Message>, _: &mut Scratch) -> u32 {
    let message = &mut correction.message;
    C::correct(&mut message.bytes, message.language, correction.field, correction.value)
}

fn outline<C: Calls>(message: &mut Message, scratch: &mut Scratch) -> u32 {
    C::outline(&message.bytes, message.language, &mut scratch.outline, &mut scratch.size)
}
