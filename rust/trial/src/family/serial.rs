//! The serial frames: the calls of both programs, and how they are compared. Each kind is run as a family.

use super::{show, Paper, Proved};
use crate::harness::{self, Call, Family, Guarded, Options, Places, Tally};
use crate::inputs::{room, serial as inputs, spare, Random};
use crate::places::serial as places;
use record::{answer, Frame, Gljc, Txhz, Txsq, Txxx};
use std::marker::PhantomData;

/// The calls of a kind of frame, each as in C but for slices and the record.
pub trait Calls<F: Frame> {
    fn read(frame: &[u8], row: &mut [i64]) -> u32;
    fn write(buf: &mut [u8], record: &F, run: &[u8]) -> u32;
    fn correct(frame: &mut [u8], field: usize, value: u64) -> u32;
    /// The content in the front of `bytes`, where it fits, and how many bytes it has in `shown`; the number is reading's.
    fn content(frame: &[u8], bytes: &mut [u8], shown: &mut usize) -> u32;
}

impl<F: Kind> Calls<F> for Proved {
    #[inline]
    fn read(frame: &[u8], row: &mut [i64]) -> u32 {
        answer(bellnewt::serial::read_row::<F>(frame, row))
    }

    #[inline]
    fn write(buf: &mut [u8], record: &F, run: &[u8]) -> u32 {
        answer(bellnewt::serial::write(buf, record, run))
    }

    #[inline]
    fn correct(frame: &mut [u8], field: usize, value: u64) -> u32 {
        answer(bellnewt::serial::correct::<F>(frame, field, value))
    }

    fn content(frame: &[u8], bytes: &mut [u8], shown: &mut usize) -> u32 {
        *shown = F::CONTENT(frame, bytes);
        answer(bellnewt::serial::read::<F>(frame).map(drop))
    }
}

impl<F: Kind> Calls<F> for Paper {
    #[inline(never)]
    fn read(frame: &[u8], row: &mut [i64]) -> u32 {
        answer(paper::serial::read_row::<F>(frame, row))
    }

    #[inline(never)]
    fn write(buf: &mut [u8], record: &F, run: &[u8]) -> u32 {
        answer(paper::serial::write(buf, record, run))
    }

    #[inline(never)]
    fn correct(frame: &mut [u8], field: usize, value: u64) -> u32 {
        answer(paper::serial::correct::<F>(frame, field, value))
    }

    fn content(frame: &[u8], bytes: &mut [u8], shown: &mut usize) -> u32 {
        answer(paper::serial::read::<F>(frame).map(|(_, content)| *shown = show(content, bytes)))
    }
}

/// A kind of frame that both programs know.
pub trait Kind: inputs::Kind + bellnewt::serial::Kind + paper::serial::Kind {
    /// Of reading, writing and correcting; and of showing the content, where there is one.
    const CALLS: &'static [Call];
    /// The bit that the content starts at, behind which fields move.
    const CONTENT_BIT: u32 = u32::MAX;
    /// The proved function that shows the content.
    const CONTENT: fn(&[u8], &mut [u8]) -> usize = |_, _| unreachable!("a frame without a content");
}

const fn read(places: Places) -> Call {
    Call { name: "read", numbers: &[0, 1, 2, 3, 4, 5, 6], places }
}

const fn write(places: Places) -> Call {
    Call { name: "write", numbers: &[0, 1, 4, 5, 6], places }
}

const fn correct(places: Places) -> Call {
    Call { name: "correct", numbers: &[0, 1, 2, 3, 4, 5, 10], places }
}

const fn content(places: Places) -> Call {
    Call { name: "content", numbers: &[0, 1, 2, 3, 4, 5], places }
}

/// GLJC has neither a run nor a fill.
impl Kind for Gljc {
    const CALLS: &'static [Call] = &[
        Call { name: "read", numbers: &[0, 1, 2, 3, 4, 6], places: places::GLJC },
        Call { name: "write", numbers: &[0, 4, 6], places: places::GLJC },
        Call { name: "correct", numbers: &[0, 1, 2, 3, 4, 10], places: places::GLJC_CORRECT },
    ];
}

impl Kind for Txsq {
    const CALLS: &'static [Call] =
        &[read(places::TXSQ), write(places::TXSQ_RECORD), correct(places::TXSQ_RECORD), content(places::TXSQ)];
    const CONTENT_BIT: u32 = 136;
    const CONTENT: fn(&[u8], &mut [u8]) -> usize = direct::txsq_content;
}

impl Kind for Txxx {
    const CALLS: &'static [Call] =
        &[read(places::TXXX), write(places::TXXX), correct(places::TXXX_CORRECT), content(places::TXXX)];
    const CONTENT_BIT: u32 = 144;
    const CONTENT: fn(&[u8], &mut [u8]) -> usize = direct::txxx_content;
}

impl Kind for Txhz {
    const CALLS: &'static [Call] = &[read(places::TXHZ), write(places::TXHZ), correct(places::TXHZ)];
}

/// One call and its numbers; the frame or buffer, the run and the row stand in `Lent`.
#[derive(Debug)]
pub enum Input<F> {
    Read,
    Write(F),
    Correct { field: usize, value: u64 },
    Content,
}

#[derive(Clone, PartialEq, Debug)]
pub struct Lent {
    bytes: Guarded<u8>,
    run: Guarded<u8>,
    row: Guarded<i64>,
    shown: usize,
}

impl<F: Kind> Input<F> {
    fn answer<C: Calls<F>>(&self, lent: &mut Lent) -> u32 {
        let bytes = lent.bytes.part();
        match self {
            Input::Read => C::read(bytes, lent.row.part()),
            Input::Write(record) => C::write(bytes, record, lent.run.part()),
            Input::Correct { field, value } => C::correct(bytes, *field, *value),
            Input::Content => C::content(bytes, lent.run.part(), &mut lent.shown),
        }
    }
}

pub struct Serial<F>(PhantomData<F>);

impl<F: Kind> Family for Serial<F> {
    const NAME: &'static str = F::LETTERS;
    const CALLS: &'static [Call] = F::CALLS;
    type Input = Input<F>;
    type Lent = Lent;

    fn input(call: usize, random: &mut Random) -> (Input<F>, Lent) {
        let (input, bytes, run, row) = match call {
            0 => (Input::Read, inputs::frame::<F>(random), Vec::new(), room(random, F::ROW)),
            1 => {
                let (record, run) = inputs::record::<F>(random);
                (Input::Write(record), spare(random, F::BARE + run.len()), run, 0)
            }
            2 => {
                let (field, value) = inputs::correction::<F>(random);
                (Input::Correct { field, value }, inputs::frame_to_correct::<F>(random), Vec::new(), 0)
            }
            _ => {
                let frame = inputs::frame::<F>(random);
                let room = spare(random, frame.len().saturating_sub(F::BARE).max(1));
                (Input::Content, frame, room, 0)
            }
        };
        let lent = Lent {
            bytes: Guarded::new(random, bytes),
            run: Guarded::new(random, run),
            row: Guarded::any(random, row),
            shown: 0,
        };
        (input, lent)
    }

    fn proved(input: &Input<F>, lent: &mut Lent) -> u32 {
        input.answer::<Proved>(lent)
    }

    fn paper(input: &Input<F>, lent: &mut Lent) -> u32 {
        input.answer::<Paper>(lent)
    }

    fn field(_: &Input<F>, _: &Lent, number: u8, bit: u32) -> Option<&'static str> {
        places::moved(number, bit, F::CONTENT_BIT)
    }
}

/// Runs all four kinds.
pub fn run(options: &Options, tally: &mut Tally) {
    harness::run::<Serial<Gljc>>(options, tally);
    harness::run::<Serial<Txsq>>(options, tally);
    harness::run::<Serial<Txxx>>(options, tally);
    harness::run::<Serial<Txhz>>(options, tally);
}
