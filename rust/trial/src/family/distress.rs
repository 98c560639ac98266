//! The distress report and its sentence: the calls of both programs, and how they are compared.

use super::{Paper, Proved};
use crate::harness::{Call, Family, Guarded};
use crate::inputs::{distress as inputs, room, spare, Random};
use crate::places::distress as places;
use record::{answer, Report};

/// The family's calls, each as in C but for slices and the report.
pub trait Calls {
    fn read(message: &[u8], row: &mut [i64]) -> u32;
    fn write(buf: &mut [u8], report: &Report) -> u32;
    fn correct(message: &mut [u8], field: usize, value: u64) -> u32;
    fn read_sentence(sentence: &[u8], row: &mut [i64]) -> u32;
    fn write_sentence(buf: &mut [u8], size: &mut usize, address: u32, report: &Report) -> u32;
}

impl Calls for Proved {
    #[inline]
    fn read(message: &[u8], row: &mut [i64]) -> u32 {
        answer(bellnewt::distress::read_row(message, row))
    }

    #[inline]
    fn write(buf: &mut [u8], report: &Report) -> u32 {
        answer(bellnewt::distress::write(buf, report))
    }

    #[inline]
    fn correct(message: &mut [u8], field: usize, value: u64) -> u32 {
        answer(bellnewt::distress::correct(message, field, value))
    }

    #[inline]
    fn read_sentence(sentence: &[u8], row: &mut [i64]) -> u32 {
        answer(bellnewt::distress::read_sentence_row(sentence, row))
    }

    #[inline]
    fn write_sentence(buf: &mut [u8], size: &mut usize, address: u32, report: &Report) -> u32 {
        answer(bellnewt::distress::write_sentence_sized(buf, size, address, report))
    }
}

impl Calls for Paper {
    #[inline(never)]
    fn read(message: &[u8], row: &mut [i64]) -> u32 {
        answer(paper::distress::read_row(message, row))
    }

    #[inline(never)]
    fn write(buf: &mut [u8], report: &Report) -> u32 {
        answer(paper::distress::write(buf, report))
    }

    #[inline(never)]
    fn correct(message: &mut [u8], field: usize, value: u64) -> u32 {
        answer(paper::distress::correct(message, field, value))
    }

    #[inline(never)]
    fn read_sentence(sentence: &[u8], row: &mut [i64]) -> u32 {
        answer(paper::distress::read_sentence_row(sentence, row))
    }

    #[inline(never)]
    fn write_sentence(buf: &mut [u8], size: &mut usize, address: u32, report: &Report) -> u32 {
        answer(paper::distress::write_sentence(buf, address, report).map(|written| *size = written))
    }
}

/// One call and its numbers; the message or buffer, the row and the size stand in `Lent`.
#[derive(Debug)]
pub enum Input {
    Read,
    Write(Report),
    Correct { field: usize, value: u64 },
    ReadSentence,
    WriteSentence { address: u32, report: Report },
}

#[derive(Clone, PartialEq, Debug)]
pub struct Lent {
    bytes: Guarded<u8>,
    row: Guarded<i64>,
    size: Guarded<usize>,
}

impl Lent {
    fn new(random: &mut Random, bytes: Vec<u8>, row: usize) -> Lent {
        Lent { bytes: Guarded::new(random, bytes), row: Guarded::any(random, row), size: Guarded::any(random, 1) }
    }
}

impl Input {
    fn answer<C: Calls>(&self, lent: &mut Lent) -> u32 {
        let (bytes, row) = (lent.bytes.part(), lent.row.part());
        match self {
            Input::Read => C::read(bytes, row),
            Input::Write(report) => C::write(bytes, report),
            Input::Correct { field, value } => C::correct(bytes, *field, *value),
            Input::ReadSentence => C::read_sentence(bytes, row),
            Input::WriteSentence { address, report } => {
                C::write_sentence(bytes, &mut lent.size.part()[0], *address, report)
            }
        }
    }
}

pub struct Distress;

impl Family for Distress {
    const NAME: &'static str = "distress";
    const CALLS: &'static [Call] = &[
        Call { name: "read", numbers: &[0, 1, 2, 4, 5, 6], places: places::READ },
        Call { name: "write", numbers: &[0, 4, 6], places: places::WRITE },
        Call { name: "correct", numbers: &[0, 1, 2, 4, 5, 10], places: places::CORRECT },
        Call { name: "sentence read", numbers: &[0, 1, 2, 3, 4, 5, 6], places: places::READ },
        Call { name: "sentence write", numbers: &[0, 4, 6], places: places::WRITE },
    ];
    type Input = Input;
    type Lent = Lent;

    fn input(call: usize, random: &mut Random) -> (Input, Lent) {
        let (input, bytes, row) = match call {
            0 => (Input::Read, inputs::message(random), room(random, Report::ROW)),
            1 => (Input::Write(inputs::report(random)), spare(random, Report::BYTES), 0),
            2 => {
                let (field, value) = inputs::correction(random);
                (Input::Correct { field, value }, inputs::message_to_correct(random), 0)
            }
            3 => (Input::ReadSentence, inputs::sentence(random), room(random, 1 + Report::ROW)),
            _ => {
                let (address, report) = (inputs::address(random), inputs::report(random));
                let size = 54 + address.checked_ilog10().unwrap_or(0) as usize;
                (Input::WriteSentence { address, report }, spare(random, size), 0)
            }
        };
        (input, Lent::new(random, bytes, row))
    }

    fn proved(input: &Input, lent: &mut Lent) -> u32 {
        input.answer::<Proved>(lent)
    }

    fn paper(input: &Input, lent: &mut Lent) -> u32 {
        input.answer::<Paper>(lent)
    }
}
