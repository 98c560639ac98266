//! What the benchmark measures: for each call one row, which both programs work through on the same messages.

mod ais;
pub mod desk;
mod distress;
mod notice;
mod packet;
mod serial;
mod tide;

use bellnewt::notice::Notice;
use record::Refusal;
use std::hint::black_box;
use trial::gpsd;
use trial::inputs::{series, Random};

/// How many distinct messages a row has, unless they are long.
pub const MESSAGES: usize = gpsd::MESSAGES;

/// Memory that the calls write to, the same for every message.
pub struct Scratch {
    pub bytes: [u8; Notice::GREATEST],
    pub row: [i64; 32],
    pub size: usize,
    pub count: u16,
    /// A notice's areas, or a tide telegram's numbers.
    pub areas: [u32; Notice::ENTRIES],
    pub text: [u8; Notice::TEXT],
    /// The points of a notice, or the heights of a tide telegram.
    pub outline: [i32; 2 * Notice::AREAS * Notice::POINTS],
}

/// A message, and a correction that it takes. The second round puts in what stands there already, which costs the same.
#[derive(Clone)]
pub struct Correction<T> {
    pub message: T,
    pub field: usize,
    pub value: u64,
}

impl<T: Clone> Correction<T> {
    /// The first correction drawn that the independent program accepts.
    pub fn accepted(
        message: T,
        mut draw: impl FnMut() -> (usize, u64),
        correct: impl Fn(&mut T, usize, u64) -> Result<(), Refusal>,
    ) -> Correction<T> {
        loop {
            let (field, value) = draw();
            if correct(&mut message.clone(), field, value).is_ok() {
                return Correction { message, field, value };
            }
        }
    }
}

/// One round over all messages of a call, by each program.
pub struct Rounds {
    pub proved: Box<dyn FnMut()>,
    pub paper: Box<dyn FnMut()>,
}

/// A call, and what makes its messages and rounds.
pub struct Row {
    pub name: &'static str,
    pub messages: usize,
    pub rounds: Box<dyn FnOnce() -> Rounds>,
}

/// A row of the call that `proved` and `paper` make on one message. They answer the call's number.
pub fn row<T: Clone + 'static>(
    name: &'static str,
    message: fn(&mut Random) -> T,
    proved: impl Fn(&mut T, &mut Scratch) -> u32 + 'static,
    paper: impl Fn(&mut T, &mut Scratch) -> u32 + 'static,
) -> Row {
    row_of(name, MESSAGES, message, proved, paper)
}

/// A row of so many messages: fewer where they are long, so that all of them stay near the processor.
pub fn row_of<T: Clone + 'static>(
    name: &'static str,
    count: usize,
    message: fn(&mut Random) -> T,
    proved: impl Fn(&mut T, &mut Scratch) -> u32 + 'static,
    paper: impl Fn(&mut T, &mut Scratch) -> u32 + 'static,
) -> Row {
    let rounds = move || {
        let messages = series(name, count, message);
        Rounds { proved: round(messages.clone(), proved), paper: round(messages, paper) }
    };
    Row { name, messages: count, rounds: Box::new(rounds) }
}

/// A round is compiled for its call, so that nothing but the call stands between two messages.
fn round<T: 'static>(mut messages: Vec<T>, call: impl Fn(&mut T, &mut Scratch) -> u32 + 'static) -> Box<dyn FnMut()> {
    let mut scratch = Box::new(Scratch {
        bytes: [0; Notice::GREATEST],
        row: [0; 32],
        size: 0,
        count: 0,
        areas: [0; Notice::ENTRIES],
        text: [0; Notice::TEXT],
        outline: [0; 2 * Notice::AREAS * Notice::POINTS],
    });
    Box::new(move || {
        for message in &mut messages {
            assert_eq!(call(black_box(message), &mut scratch), 0, "the messages are good");
            black_box(&mut scratch);
        }
    })
}

/// The rows of every family.
pub fn rows() -> Vec<Row> {
    [distress::rows(), serial::rows(), ais::rows(), packet::rows(), notice::rows(), desk::rows(), tide::rows()]
        .into_iter()
        .flatten()
        .collect()
}
