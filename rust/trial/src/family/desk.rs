//! The packet desk: the calls of both programs, and how they are compared over sequences of calls. Each call of a
//! sequence is lent the places and the store as the one before left them. The proved desk is run over bytes, as C lends
//! them, and over a row of places.

mod rows;
mod sequence;

use super::{Paper, Proved};
use crate::harness::{self, Call, Cell, Counts, Options, Tally};
use crate::inputs::Random;
use crate::places::{packet, NONE};
use paper::desk::Answer;
use record::{answer, Accepted, Place, Refusal};
use rows::Rows;

/// The desk's calls, each as in C but for slices, and for the places: the independent program has its own.
pub trait Calls {
    /// What places are lent as: bytes, or structs.
    type Cell: Copy;
    /// How many bytes of a row a cell spells.
    const CELL: usize;

    /// The places that a row of bytes spells, and the row that places are spelled by.
    fn places(row: &[u8]) -> Vec<Self::Cell>;
    fn row(places: &[Self::Cell]) -> Vec<u8>;

    fn accept(places: &mut [Self::Cell], store: &mut [u8], packet: &[u8], again: &mut u8) -> u32;
    fn ask(
        places: &mut [Self::Cell],
        store: &[u8],
        number: u8,
        notice: &mut [u8],
        missing: &mut [u16],
        count: &mut usize,
        language: &mut u8,
    ) -> u32;
    fn drop(places: &mut [Self::Cell], store: &[u8], number: u8) -> u32;
}

impl Calls for Proved {
    type Cell = u8;
    const CELL: usize = 1;

    #[inline]
    fn places(row: &[u8]) -> Vec<u8> {
        row.to_vec()
    }

    #[inline]
    fn row(places: &[u8]) -> Vec<u8> {
        places.to_vec()
    }

    #[inline]
    fn accept(places: &mut [u8], store: &mut [u8], packet: &[u8], again: &mut u8) -> u32 {
        answer(bellnewt::desk::accept_in(places, store, packet, again))
    }

    #[inline]
    fn ask(
        places: &mut [u8],
        store: &[u8],
        number: u8,
        notice: &mut [u8],
        missing: &mut [u16],
        count: &mut usize,
        language: &mut u8,
    ) -> u32 {
        answer(bellnewt::desk::ask_in(places, store, number, notice, missing, count, language))
    }

    #[inline]
    fn drop(places: &mut [u8], store: &[u8], number: u8) -> u32 {
        answer(bellnewt::desk::drop_in(places, store, number))
    }
}

impl Calls for Paper {
    type Cell = Place;
    const CELL: usize = Place::BYTES;

    fn places(row: &[u8]) -> Vec<Place> {
        row.as_chunks().0.iter().map(Place::of_bytes).collect()
    }

    fn row(places: &[Place]) -> Vec<u8> {
        places.iter().flat_map(Place::bytes).collect()
    }

    #[inline(never)]
    fn accept(places: &mut [Place], store: &mut [u8], packet: &[u8], again: &mut u8) -> u32 {
        let accepted = paper::desk::accept(places, store, packet);
        answer(accepted.map(|accepted| *again = u8::from(accepted == Accepted::Again)))
    }

    #[inline(never)]
    fn ask(
        places: &mut [Place],
        store: &[u8],
        number: u8,
        notice: &mut [u8],
        missing: &mut [u16],
        count: &mut usize,
        language: &mut u8,
    ) -> u32 {
        answer(paper::desk::ask(places, store, number, notice, missing).and_then(|answer| match answer {
            Answer::Complete { bytes, language: spoken } => {
                (*count, *language) = (bytes, spoken);
                Ok(())
            }
            Answer::Missing { count: numbers } => {
                *count = numbers;
                Err(Refusal::INCOMPLETE)
            }
        }))
    }

    #[inline(never)]
    fn drop(places: &mut [Place], store: &[u8], number: u8) -> u32 {
        answer(paper::desk::drop(places, store, number))
    }
}

/// Accepting a packet that is held already is counted by itself.
const ACCEPT: usize = 0;
const ACCEPT_AGAIN: usize = 1;
const ASK: usize = 2;
const DROP: usize = 3;
const CALLS: [Call; 4] = [
    Call { name: "accept", numbers: &[0, 1, 2, 4, 6, 7, 8], places: packet::READ },
    Call { name: "accept again", numbers: &[0], places: NONE },
    Call { name: "ask", numbers: &[0, 4, 6, 9, 11], places: NONE },
    Call { name: "drop", numbers: &[0, 4, 6, 11], places: NONE },
];

/// The most calls of a sequence; the least are a tenth of them.
const LONGEST: u64 = 5_000;

/// Runs the desk over bytes, and over a row of places.
pub fn run(options: &Options, tally: &mut Tally) {
    run_as::<Proved>("desk", options, tally);
    run_as::<Rows>("desk row", options, tally);
}

/// Runs sequences of about as many calls in all as other families are given inputs. A short run has short ones, so that
/// there are many in any case.
fn run_as<C: Calls<Cell: Cell + PartialEq>>(name: &'static str, options: &Options, tally: &mut Tally) {
    let longest = (options.inputs / 20).clamp(10, LONGEST);
    let shortest = longest / 10;
    let sequences = options.inputs.div_ceil((shortest + longest) / 2);
    let compare = |index: u64, counts: &mut Counts| {
        let random = &mut Random::new(options.seed, name, index);
        let calls = random.between(shortest as i64, longest as i64);
        sequence::compare::<C>(random, calls, &format!("{name}, seed {}, sequence {index}", options.seed), counts);
    };
    harness::run_pieces(name, &CALLS, sequences, compare, options.floor(), tally);
}
