//! The tide telegram and its heights: the calls of both programs, and how they are compared.

use super::{Paper, Proved};
use crate::harness::{Call, Family, Guarded};
use crate::inputs::{rooms, row_to_write, spare, tide as inputs, Random};
use crate::places::{tide as places, Numbers};
use record::answer;

/// The family's calls, each as in C but for slices.
pub trait Calls {
    fn read(message: &[u8], count: &mut u16, numbers: &mut usize, row: &mut [u32]) -> u32;
    fn write(buf: &mut [u8], count: u16, row: &[u32]) -> u32;
    fn correct(message: &mut [u8], field: usize, value: u64) -> u32;
    fn heights(message: &[u8], heights: &mut [i32], count: &mut usize) -> u32;
}

impl Calls for Proved {
    #[inline]
    fn read(message: &[u8], count: &mut u16, numbers: &mut usize, row: &mut [u32]) -> u32 {
        answer(bellnewt::tide::read_row(message, count, numbers, row))
    }

    #[inline]
    fn write(buf: &mut [u8], count: u16, row: &[u32]) -> u32 {
        answer(bellnewt::tide::write_row(buf, count, row))
    }

    #[inline]
    fn correct(message: &mut [u8], field: usize, value: u64) -> u32 {
        answer(bellnewt::tide::correct_field(message, field, value))
    }

    #[inline]
    fn heights(message: &[u8], heights: &mut [i32], count: &mut usize) -> u32 {
        answer(bellnewt::tide::heights_row(message, heights, count))
    }
}

impl Calls for Paper {
    #[inline(never)]
    fn read(message: &[u8], count: &mut u16, numbers: &mut usize, row: &mut [u32]) -> u32 {
        answer(paper::tide::read(message, row).map(|found| (*count, *numbers) = found))
    }

    #[inline(never)]
    fn write(buf: &mut [u8], count: u16, row: &[u32]) -> u32 {
        answer(paper::tide::write(buf, count, row))
    }

    #[inline(never)]
    fn correct(message: &mut [u8], field: usize, value: u64) -> u32 {
        answer(paper::tide::correct(message, field, value))
    }

    #[inline(never)]
    fn heights(message: &[u8], heights: &mut [i32], count: &mut usize) -> u32 {
        answer(paper::tide::heights(message, heights).map(|found| *count = found))
    }
}

/// One call and its numbers; all that it is lent stands in `Lent`.
#[derive(Debug)]
pub enum Input {
    Read,
    Write { count: u16 },
    Correct { field: usize, value: u64 },
    Heights,
}

#[derive(Clone, PartialEq, Debug)]
pub struct Lent {
    /// The message, or the buffer that it is written into.
    bytes: Guarded<u8>,
    /// How many records a reading answers, and how many numbers of the row they take.
    count: Guarded<u16>,
    numbers: Guarded<usize>,
    row: Guarded<u32>,
    /// The row of heights, and how many of them are answered.
    heights: Guarded<i32>,
    heights_count: Guarded<usize>,
}

impl Lent {
    /// Lends a message, or a buffer, alone.
    fn new(random: &mut Random, bytes: Vec<u8>) -> Lent {
        Lent {
            bytes: Guarded::new(random, bytes),
            count: Guarded::any(random, 1),
            numbers: Guarded::any(random, 1),
            row: Guarded::any(random, 0),
            heights: Guarded::any(random, 0),
            heights_count: Guarded::any(random, 1),
        }
    }
}

impl Input {
    fn answer<C: Calls>(&self, lent: &mut Lent) -> u32 {
        let (bytes, row) = (lent.bytes.part(), lent.row.part());
        match self {
            Input::Read => C::read(bytes, &mut lent.count.part()[0], &mut lent.numbers.part()[0], row),
            Input::Write { count } => C::write(bytes, *count, row),
            Input::Correct { field, value } => C::correct(bytes, *field, *value),
            Input::Heights => C::heights(bytes, lent.heights.part(), &mut lent.heights_count.part()[0]),
        }
    }
}

fn read_input(random: &mut Random) -> (Input, Lent) {
    let draft = inputs::draft(random);
    let message = inputs::message(random, &draft);
    let mut lent = Lent::new(random, message);
    let [row] = rooms(random, [draft.numbers.len()]);
    lent.row = Guarded::any(random, row);
    (Input::Read, lent)
}

fn write_input(random: &mut Random) -> (Input, Lent) {
    let draft = inputs::draft_to_write(random);
    let buf = spare(random, draft.bytes());
    let mut lent = Lent::new(random, buf);
    let row = row_to_write(random, draft.row());
    lent.row = Guarded::new(random, row);
    (Input::Write { count: draft.count() }, lent)
}

fn correct_input(random: &mut Random) -> (Input, Lent) {
    let (draft, message) = inputs::message_to_correct(random);
    let (field, value) = inputs::correction(random, &draft);
    (Input::Correct { field, value }, Lent::new(random, message))
}

fn heights_input(random: &mut Random) -> (Input, Lent) {
    let draft = inputs::draft(random);
    let message = inputs::message(random, &draft);
    let mut lent = Lent::new(random, message);
    let [heights] = rooms(random, [draft.heights()]);
    lent.heights = Guarded::any(random, heights);
    (Input::Heights, lent)
}

pub struct Tides;

impl Family for Tides {
    const NAME: &'static str = "tide";
    const CALLS: &'static [Call] = &[
        Call { name: "read", numbers: &[0, 1, 2, 4, 5, 6], places: places::READ },
        Call { name: "write", numbers: &[0, 1, 4, 6], places: places::WRITE },
        Call { name: "correct", numbers: &[0, 1, 2, 4, 5, 10], places: places::CORRECT },
        Call { name: "heights", numbers: &[0, 1, 2, 4, 5, 6], places: places::READ },
    ];
    type Input = Input;
    type Lent = Lent;

    fn input(call: usize, random: &mut Random) -> (Input, Lent) {
        match call {
            0 => read_input(random),
            1 => write_input(random),
            2 => correct_input(random),
            _ => heights_input(random),
        }
    }

    fn proved(input: &Input, lent: &mut Lent) -> u32 {
        input.answer::<Proved>(lent)
    }

    fn paper(input: &Input, lent: &mut Lent) -> u32 {
        input.answer::<Paper>(lent)
    }

    fn field(input: &Input, before: &Lent, number: u8, bit: u32) -> Option<&'static str> {
        let message = before.bytes.see();
        let (records, numbers) = match (input, message) {
            (Input::Write { count }, _) => (*count, Numbers::Row(before.row.see())),
            (_, [_, first, second, ..]) => (u16::from_be_bytes([first & 15, *second]) >> 3, Numbers::Bits(message)),
            _ => return None,
        };
        (bit > 0).then(|| places::field(number, bit, records.into(), numbers))
    }
}
