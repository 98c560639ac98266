//! The day log's listing (01, "Day log listing").

use super::{ais, distress, packet, serial};
use record::Refusal;
use std::fmt::Write;

/// A kind of record: its number in the log, its word in the listing, and what its family says of a body.
pub struct Kind {
    pub number: u16,
    pub word: &'static str,
    judge: fn(&[u8]) -> Result<(), Refusal>,
}

/// The kinds that are handled. Every other prints `unknown` and 2.
pub const KINDS: &[Kind] = &[
    Kind { number: 1, word: "serial", judge: serial::read_any },
    Kind { number: 2, word: "packet", judge: |body| packet::read(body).map(drop) },
    Kind { number: 3, word: "distress", judge: |body| distress::read(body).map(drop) },
    Kind { number: 4, word: "ais", judge: ais::read_any },
];

const HEAD: usize = 4;
const GREATEST: usize = 256;

/// The kind and body of the record that the rest of a log opens with, and what follows it; none if it is broken.
fn record(rest: &[u8]) -> Option<(u16, &[u8], &[u8])> {
    let &[a, b, c, d] = rest.first_chunk()?;
    let length = usize::from(u16::from_le_bytes([a, b]));
    if !(HEAD..=GREATEST).contains(&length) || length > rest.len() {
        return None;
    }
    let (whole, after) = rest.split_at(length);
    Some((u16::from_le_bytes([c, d]), &whole[HEAD..], after))
}

/// Every line of the listing.
pub fn listing(log: &[u8]) -> String {
    let mut out = String::from("n kind code bytes bit\n");
    let mut line = |n: usize, word: &str, answer: Result<(), Refusal>, bytes: usize| {
        let (code, bit) = answer.map_or_else(|refusal| (refusal.code(), refusal.bit()), |()| (0, 0));
        writeln!(out, "{n} {word} {code} {bytes} {bit}").expect("a string takes every line");
    };
    let mut rest = log;
    for n in 1.. {
        if rest.is_empty() {
            break;
        }
        let Some((number, body, after)) = record(rest) else {
            line(n, "broken", Err(Refusal::SIZE), rest.len());
            break;
        };
        match KINDS.iter().find(|kind| kind.number == number) {
            Some(kind) => line(n, kind.word, (kind.judge)(body), body.len()),
            None => line(n, "unknown", Err(Refusal::KIND), body.len()),
        }
        rest = after;
    }
    out
}
