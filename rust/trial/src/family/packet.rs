//! The packet and the splitter: the calls of both programs, and how they are compared.

use super::{show, Paper, Proved};
use crate::harness::{Call, Family, Guarded};
use crate::inputs::{packet as inputs, room, spare, Random};
use crate::places::{packet as places, NONE};
use record::{answer, Packet};

/// The family's calls, each as in C but for slices and the record. `numbers` asks what follows each of the 256 message
/// numbers.
pub trait Calls {
    fn read(packet: &[u8], row: &mut [i64]) -> u32;
    fn write(buf: &mut [u8], record: &Packet, content: &[u8]) -> u32;
    fn correct(packet: &mut [u8], field: usize, value: u64) -> u32;
    fn split(buf: &mut [u8], content: &[u8], language: u8, number: u8, packet: usize) -> u32;
    fn next_number(number: u8) -> u8;
    /// The content in the front of `bytes`, where it fits, and how many bytes it has in `shown`; the number is reading's.
    fn content(packet: &[u8], bytes: &mut [u8], shown: &mut usize) -> u32;
}

impl Calls for Proved {
    #[inline]
    fn read(packet: &[u8], row: &mut [i64]) -> u32 {
        answer(bellnewt::packet::read_row(packet, row))
    }

    #[inline]
    fn write(buf: &mut [u8], record: &Packet, content: &[u8]) -> u32 {
        answer(bellnewt::packet::write(buf, record, content))
    }

    #[inline]
    fn correct(packet: &mut [u8], field: usize, value: u64) -> u32 {
        answer(bellnewt::packet::correct(packet, field, value))
    }

    #[inline]
    fn split(buf: &mut [u8], content: &[u8], language: u8, number: u8, packet: usize) -> u32 {
        answer(bellnewt::packet::split(buf, content, language, number, packet))
    }

    #[inline]
    fn next_number(number: u8) -> u8 {
        bellnewt::packet::next_number(number)
    }

    fn content(packet: &[u8], bytes: &mut [u8], shown: &mut usize) -> u32 {
        *shown = direct::packet_content(packet, bytes);
        answer(bellnewt::packet::read(packet).map(drop))
    }
}

impl Calls for Paper {
    #[inline(never)]
    fn read(packet: &[u8], row: &mut [i64]) -> u32 {
        answer(paper::packet::read_row(packet, row))
    }

    #[inline(never)]
    fn write(buf: &mut [u8], record: &Packet, content: &[u8]) -> u32 {
        answer(paper::packet::write(buf, record, content))
    }

    #[inline(never)]
    fn correct(packet: &mut [u8], field: usize, value: u64) -> u32 {
        answer(paper::packet::correct(packet, field, value))
    }

    #[inline(never)]
    fn split(buf: &mut [u8], content: &[u8], language: u8, number: u8, packet: usize) -> u32 {
        answer(paper::packet::split(buf, content, language, number, packet))
    }

    #[inline(never)]
    fn next_number(number: u8) -> u8 {
        paper::packet::next_number(number)
    }

    fn content(packet: &[u8], bytes: &mut [u8], shown: &mut usize) -> u32 {
        answer(paper::packet::read(packet).map(|(_, content)| *shown = show(content, bytes)))
    }
}

/// One call and its numbers; the packet or buffer, the content and the row stand in `Lent`.
#[derive(Debug)]
pub enum Input {
    Read,
    Write(Packet),
    Correct { field: usize, value: u64 },
    Split { language: u8, number: u8, packet: usize },
    Content,
}

#[derive(Clone, PartialEq, Debug)]
pub struct Lent {
    bytes: Guarded<u8>,
    content: Guarded<u8>,
    row: Guarded<i64>,
    shown: usize,
}

impl Input {
    fn answer<C: Calls>(&self, lent: &mut Lent) -> u32 {
        let (bytes, content) = (lent.bytes.part(), lent.content.part());
        match self {
            Input::Read => C::read(bytes, lent.row.part()),
            Input::Write(record) => C::write(bytes, record, content),
            Input::Correct { field, value } => C::correct(bytes, *field, *value),
            Input::Split { language, number, packet } => C::split(bytes, content, *language, *number, *packet),
            Input::Content => C::content(bytes, content, &mut lent.shown),
        }
    }
}

pub struct Packets;

impl Family for Packets {
    const NAME: &'static str = "packet";
    const CALLS: &'static [Call] = &[
        Call { name: "read", numbers: &[0, 1, 2, 4, 6], places: places::READ },
        Call { name: "write", numbers: &[0, 1, 4, 6], places: places::WRITE },
        Call { name: "correct", numbers: &[0, 1, 2, 4, 10], places: places::CORRECT },
        Call { name: "split", numbers: &[0, 1, 4, 6], places: NONE },
        Call { name: "content", numbers: &[0, 1, 2, 4], places: places::READ },
    ];
    type Input = Input;
    type Lent = Lent;

    fn input(call: usize, random: &mut Random) -> (Input, Lent) {
        let (input, bytes, content, row) = match call {
            0 => (Input::Read, inputs::packet(random), Vec::new(), room(random, Packet::ROW)),
            1 => {
                let (record, content) = inputs::record(random);
                (Input::Write(record), spare(random, Packet::HEAD + content.len()), content, 0)
            }
            2 => {
                let (field, value) = inputs::correction(random);
                (Input::Correct { field, value }, inputs::packet_to_correct(random), Vec::new(), 0)
            }
            3 => {
                let split = inputs::split(random);
                let bytes = spare(random, split.bytes());
                let inputs::Split { language, number, packet, content } = split;
                (Input::Split { language, number, packet }, bytes, content, 0)
            }
            _ => {
                let packet = inputs::packet(random);
                let room = spare(random, packet.len().saturating_sub(Packet::HEAD).max(1));
                (Input::Content, packet, room, 0)
            }
        };
        let lent = Lent {
            bytes: Guarded::new(random, bytes),
            content: Guarded::new(random, content),
            row: Guarded::any(random, row),
            shown: 0,
        };
        (input, lent)
    }

    fn proved(input: &Input, lent: &mut Lent) -> u32 {
        input.answer::<Proved>(lent)
    }

    fn paper(input: &Input, lent: &mut Lent) -> u32 {
        input.answer::<Paper>(lent)
    }
}
