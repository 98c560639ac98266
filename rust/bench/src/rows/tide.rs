//! The tide telegram and its heights: one record with six entries, and as many bytes as there can be.

use super::{row, row_of, Correction, Row, Scratch, MESSAGES};
use bellnewt::tide::Tide;
use paper::tide;
use trial::family::tide::Calls;
use trial::family::{Paper, Proved};
use trial::inputs::{tide as inputs, Random};

#[derive(Clone)]
struct Message(Vec<u8>);

/// What a telegram is written from.
#[derive(Clone)]
struct Record {
    count: u16,
    row: Vec<u32>,
}

pub fn rows() -> Vec<Row> {
    vec![
        row("tide read", message::<6>, read::<Proved>, read::<Paper>),
        row("tide write", record::<6>, write::<Proved>, write::<Paper>),
        row("tide correct", correction::<6>, correct::<Proved>, correct::<Paper>),
        row("heights", message::<6>, heights::<Proved>, heights::<Paper>),
        row_of("tide read 210", FEWER, message::<MOST>, read::<Proved>, read::<Paper>),
        row_of("tide write 210", FEWER, record::<MOST>, write::<Proved>, write::<Paper>),
        row_of("tide correct 210", FEWER, correction::<MOST>, correct::<Proved>, correct::<Paper>),
        row_of("heights 210", FEWER, message::<MOST>, heights::<Proved>, heights::<Paper>),
    ]
}

/// As many entries as fill the 210 bytes of a telegram at a point.
const MOST: usize = 50;
const FEWER: usize = MESSAGES / 10;

/// A good telegram of one record with so many entries; with the most of them, one of the greatest size.
fn draft_with(random: &mut Random, entries: usize) -> inputs::Draft {
    loop {
        let draft = inputs::good_draft_with(random, &[entries]);
        if entries < MOST || draft.bytes() == Tide::GREATEST {
            return draft;
        }
    }
}

fn message<const ENTRIES: usize>(random: &mut Random) -> Message {
    Message(draft_with(random, ENTRIES).message())
}

fn record<const ENTRIES: usize>(random: &mut Random) -> Record {
    let draft = draft_with(random, ENTRIES);
    Record { count: draft.count(), row: draft.row() }
}

fn correction<const ENTRIES: usize>(random: &mut Random) -> Correction<Message> {
    let draft = draft_with(random, ENTRIES);
    let correct = |message: &mut Message, field, value| tide::correct(&mut message.0, field, value);
    Correction::accepted(Message(draft.message()), || inputs::correction(random, &draft), correct)
}

fn read<C: Calls>(message: &mut Message, scratch: &mut Scratch) -> u32 {
    C::read(&message.0, &mut scratch.count, &mut scratch.size, &mut scratch.areas)
}

fn write<C: Calls>(record: &mut Record, scratch: &mut Scratch) -> u32 {
    C::write(&mut scratch.bytes, record.count, &record.row)
}

fn correct<C: Calls>(correction: &mut Correction<Message>, _: &mut Scratch) -> u32 {
    C::correct(&mut correction.message.0, correction.field, correction.value)
}

fn heights<C: Calls>(message: &mut Message, scratch: &mut Scratch) -> u32 {
    C::heights(&message.0, &mut scratch.outline, &mut scratch.size)
}
