//! The notice and its outline: the calls of both programs, and how they are compared.

use super::{Paper, Proved};
use crate::harness::{Call, Family, Guarded};
use crate::inputs::{notice as inputs, rooms, row_to_write, spare, Random};
use crate::places::{notice as places, Numbers};
use bellnewt::notice::{Head, Notice};
use record::{answer, ENGLISH};

/// The family's calls, each as in C but for slices and the head.
pub trait Calls {
    fn read(message: &[u8], language: u8, row: &mut [i64], areas: &mut [u32], text: &mut [u8]) -> u32;
    fn write(buf: &mut [u8], language: u8, head: &Head, count: u8, areas: &[u32], text: &[u8]) -> u32;
    fn correct(message: &mut [u8], language: u8, field: usize, value: u64) -> u32;
    fn outline(message: &[u8], language: u8, row: &mut [i32], points: &mut usize) -> u32;
}

impl Calls for Proved {
    #[inline]
    fn read(message: &[u8], language: u8, row: &mut [i64], areas: &mut [u32], text: &mut [u8]) -> u32 {
        answer(bellnewt::notice::read_row(message, language, row, areas, text))
    }

    #[inline]
    fn write(buf: &mut [u8], language: u8, head: &Head, count: u8, areas: &[u32], text: &[u8]) -> u32 {
        answer(bellnewt::notice::write_row(buf, language, head, count, areas, text))
    }

    #[inline]
    fn correct(message: &mut [u8], language: u8, field: usize, value: u64) -> u32 {
        answer(bellnewt::notice::correct_field(message, language, field, value))
    }

    #[inline]
    fn outline(message: &[u8], language: u8, row: &mut [i32], points: &mut usize) -> u32 {
        answer(bellnewt::notice::outline_row(message, language, row, points))
    }
}

impl Calls for Paper {
    #[inline(never)]
    fn read(message: &[u8], language: u8, row: &mut [i64], areas: &mut [u32], text: &mut [u8]) -> u32 {
        answer(paper::notice::read(message, language, row, areas, text))
    }

    #[inline(never)]
    fn write(buf: &mut [u8], language: u8, head: &Head, count: u8, areas: &[u32], text: &[u8]) -> u32 {
        answer(paper::notice::write(buf, language, head, count, areas, text))
    }

    #[inline(never)]
    fn correct(message: &mut [u8], language: u8, field: usize, value: u64) -> u32 {
        answer(paper::notice::correct(message, language, field, value))
    }

    #[inline(never)]
    fn outline(message: &[u8], language: u8, row: &mut [i32], points: &mut usize) -> u32 {
        answer(paper::notice::outline(message, language, row).map(|count| *points = count))
    }
}

/// One call and its numbers; all that it is lent stands in `Lent`.
#[derive(Debug)]
pub enum Input {
    Read { language: u8 },
    Write { language: u8, head: Head, count: u8 },
    Correct { language: u8, field: usize, value: u64 },
    Outline { language: u8 },
}

#[derive(Clone, PartialEq, Debug)]
pub struct Lent {
    /// The message, or the buffer that it is written into.
    bytes: Guarded<u8>,
    row: Guarded<i64>,
    areas: Guarded<u32>,
    text: Guarded<u8>,
    /// An outline's row, and how many points it answers.
    outline: Guarded<i32>,
    points: Guarded<usize>,
}

impl Lent {
    /// Lends a message, or a buffer, alone.
    fn new(random: &mut Random, bytes: Vec<u8>) -> Lent {
        Lent {
            bytes: Guarded::new(random, bytes),
            row: Guarded::any(random, 0),
            areas: Guarded::any(random, 0),
            text: Guarded::any(random, 0),
            outline: Guarded::any(random, 0),
            points: Guarded::any(random, 1),
        }
    }
}

impl Input {
    fn answer<C: Calls>(&self, lent: &mut Lent) -> u32 {
        let (bytes, areas, text) = (lent.bytes.part(), lent.areas.part(), lent.text.part());
        match self {
            Input::Read { language } => C::read(bytes, *language, lent.row.part(), areas, text),
            Input::Write { language, head, count } => C::write(bytes, *language, head, *count, areas, text),
            Input::Correct { language, field, value } => C::correct(bytes, *language, *field, *value),
            Input::Outline { language } => {
                C::outline(bytes, *language, lent.outline.part(), &mut lent.points.part()[0])
            }
        }
    }
}

fn read_input(random: &mut Random) -> (Input, Lent) {
    let draft = inputs::draft(random);
    let message = inputs::message(random, &draft);
    let mut lent = Lent::new(random, message);
    let [row, areas, text] = rooms(random, [Notice::ROW, draft.areas().len(), draft.text.len()]);
    lent.row = Guarded::any(random, row);
    lent.areas = Guarded::any(random, areas);
    lent.text = Guarded::any(random, text);
    (Input::Read { language: draft.language }, lent)
}

fn write_input(random: &mut Random) -> (Input, Lent) {
    let draft = inputs::draft_to_write(random);
    let buf = spare(random, draft.bytes());
    let mut lent = Lent::new(random, buf);
    let areas = row_to_write(random, draft.areas());
    lent.areas = Guarded::new(random, areas);
    let input = Input::Write { language: draft.language, head: draft.head(), count: draft.count() };
    lent.text = Guarded::new(random, draft.text);
    (input, lent)
}

fn correct_input(random: &mut Random) -> (Input, Lent) {
    let (draft, message) = inputs::message_to_correct(random);
    let (field, value) = inputs::correction(random, &draft);
    (Input::Correct { language: draft.language, field, value }, Lent::new(random, message))
}

fn outline_input(random: &mut Random) -> (Input, Lent) {
    let draft = inputs::draft(random);
    let message = inputs::message(random, &draft);
    let mut lent = Lent::new(random, message);
    let [outline] = rooms(random, [2 * draft.points()]);
    lent.outline = Guarded::any(random, outline);
    (Input::Outline { language: draft.language }, lent)
}

pub struct Notices;

impl Family for Notices {
    const NAME: &'static str = "notice";
    const CALLS: &'static [Call] = &[
        Call { name: "read", numbers: &[0, 1, 4, 5, 6], places: places::READ },
        Call { name: "write", numbers: &[0, 1, 4, 6], places: places::WRITE },
        Call { name: "correct", numbers: &[0, 1, 4, 5, 10], places: places::CORRECT },
        Call { name: "outline", numbers: &[0, 1, 4, 5, 6], places: places::READ },
    ];
    type Input = Input;
    type Lent = Lent;

    fn input(call: usize, random: &mut Random) -> (Input, Lent) {
        match call {
            0 => read_input(random),
            1 => write_input(random),
            2 => correct_input(random),
            _ => outline_input(random),
        }
    }

    fn proved(input: &Input, lent: &mut Lent) -> u32 {
        input.answer::<Proved>(lent)
    }

    fn paper(input: &Input, lent: &mut Lent) -> u32 {
        input.answer::<Paper>(lent)
    }

    /// Bit 0 is the source's where it is 4 and the language is one.
    fn field(input: &Input, before: &Lent, number: u8, bit: u32) -> Option<&'static str> {
        let message = before.bytes.see();
        let (language, areas, numbers) = match *input {
            Input::Write { language, count, .. } => (language, count, Numbers::Row(before.areas.see())),
            Input::Read { language } | Input::Correct { language, .. } | Input::Outline { language } => {
                (language, message.get(7).map_or(0, |last| last >> 1 & 15), Numbers::Bits(message))
            }
        };
        let is_field = bit > 0 || number == 4 && language <= ENGLISH;
        is_field.then(|| places::field(number, bit, areas.into(), numbers))
    }
}
