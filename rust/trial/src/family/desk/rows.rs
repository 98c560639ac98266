//! The desk over a lent row of places, which is the proved code's own form of it; the calls for C are lent bytes.

use super::{Calls, Paper};
use crate::harness::Cell;
use crate::inputs::Random;
use direct::Place;

/// The answers of the compiled, proved code over a row of places.
pub struct Rows;

/// What is lent for a number of which the reply says nothing.
const UNSAID: usize = usize::MAX;

impl Cell for Place {
    fn any(random: &mut Random) -> Place {
        Place {
            open: random.one_in(2),
            number: random.byte(),
            language: random.byte(),
            total: random.byte(),
            sizes: std::array::from_fn(|_| random.byte()),
        }
    }
}

impl Calls for Rows {
    type Cell = Place;
    const CELL: usize = record::Place::BYTES;

    fn places(row: &[u8]) -> Vec<Place> {
        Paper::places(row).into_iter().map(Place::from).collect()
    }

    fn row(places: &[Place]) -> Vec<u8> {
        places.iter().flat_map(|place| record::Place::from(*place).bytes()).collect()
    }

    fn accept(places: &mut [Place], store: &mut [u8], packet: &[u8], again: &mut u8) -> u32 {
        let mut said = [usize::from(*again), UNSAID, UNSAID];
        let code = direct::accept(&mut said, places, store, packet);
        assert_eq!(said[1..], [UNSAID; 2], "accepting says no count and no language");
        *again = said[0] as u8;
        code
    }

    fn ask(
        places: &mut [Place],
        store: &[u8],
        number: u8,
        notice: &mut [u8],
        missing: &mut [u16],
        count: &mut usize,
        language: &mut u8,
    ) -> u32 {
        let mut said = [UNSAID, *count, usize::from(*language)];
        let code = direct::ask(&mut said, places, store, number, notice, missing);
        assert_eq!(said[0], UNSAID, "asking says nothing of a packet");
        (*count, *language) = (said[1], said[2] as u8);
        code
    }

    fn drop(places: &mut [Place], store: &[u8], number: u8) -> u32 {
        let mut said = [0, UNSAID, UNSAID];
        let code = direct::drop(&mut said, places, store, number);
        assert_eq!(said, [0, UNSAID, UNSAID], "dropping says no more than done");
        code
    }
}
