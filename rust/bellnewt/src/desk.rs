//! The packet desk: it joins packets that come in any order, of up to four notices at a time.
//!
//! ```
//! use bellnewt::desk::{Asked, Desk};
//! use bellnewt::packet::{self, ENGLISH};
//!
//! let packets = packet::packets(&[0x41; 300], ENGLISH, 7)?;
//! let mut desk = Desk::new();
//! desk.accept(&packets[1])?;
//! assert_eq!(desk.ask(7)?, Asked::Missing(vec![0]));
//!
//! desk.accept(&packets[0])?;
//! assert_eq!(desk.ask(7)?, Asked::Complete { notice: vec![0x41; 300], language: ENGLISH });
//! # Ok::<(), bellnewt::Refusal>(())
//! ```

use crate::call::answer;
use crate::notice::Notice;
use record::Refusal;

#[doc(inline)]
pub use record::{Accepted, Place};

extern "C" {
    fn bellnewt_desk_accept(
        places: *mut u8,
        places_len: usize,
        store: *mut u8,
        store_len: usize,
        packet: *const u8,
        packet_len: usize,
        again: *mut u8,
    ) -> u32;
    fn bellnewt_desk_ask(
        places: *mut u8,
        places_len: usize,
        store: *const u8,
        store_len: usize,
        number: u8,
        notice: *mut u8,
        notice_len: usize,
        missing: *mut u16,
        missing_len: usize,
        count: *mut usize,
        language: *mut u8,
    ) -> u32;
    fn bellnewt_desk_drop(places: *mut u8, places_len: usize, store: *const u8, store_len: usize, number: u8) -> u32;
}

/// Takes a packet into lent places and a lent store, as in C.
///
/// `again` becomes 1 if the packet was held already, else 0. A refusal leaves all lent memory as it was.
#[inline]
pub fn accept_in(places: &mut [u8], store: &mut [u8], packet: &[u8], again: &mut u8) -> Result<(), Refusal> {
    // SAFETY: see `call`.
    answer(unsafe {
        bellnewt_desk_accept(
            places.as_mut_ptr(),
            places.len(),
            store.as_mut_ptr(),
            store.len(),
            packet.as_ptr(),
            packet.len(),
            again,
        )
    })
}

/// Joins the notice of a message number from lent places and a lent store, as in C.
///
/// `count` becomes the number of its bytes. Where packets are missing, the answer is [`Refusal::INCOMPLETE`]; then
/// `missing` lists them and `count` says how many they are.
#[inline]
pub fn ask_in(
    places: &mut [u8],
    store: &[u8],
    number: u8,
    notice: &mut [u8],
    missing: &mut [u16],
    count: &mut usize,
    language: &mut u8,
) -> Result<(), Refusal> {
    // SAFETY: see `call`.
    answer(unsafe {
        bellnewt_desk_ask(
            places.as_mut_ptr(),
            places.len(),
            store.as_ptr(),
            store.len(),
            number,
            notice.as_mut_ptr(),
            notice.len(),
            missing.as_mut_ptr(),
            missing.len(),
            count,
            language,
        )
    })
}

/// Gives up the notice of a message number in lent places, as in C.
#[inline]
pub fn drop_in(places: &mut [u8], store: &[u8], number: u8) -> Result<(), Refusal> {
    // SAFETY: see `call`.
    answer(unsafe { bellnewt_desk_drop(places.as_mut_ptr(), places.len(), store.as_ptr(), store.len(), number) })
}

/// What the desk says of an open notice.
#[derive(Clone, PartialEq, Eq, Debug)]
pub enum Asked {
    /// All packets have come. The notice has left the desk, and its place is free again.
    Complete {
        /// The notice's bytes.
        notice: Vec<u8>,
        /// [`CHINESE`](crate::packet::CHINESE) or [`ENGLISH`](crate::packet::ENGLISH).
        language: u8,
    },
    /// The packets that have not come, by their own numbers, rising.
    Missing(Vec<u16>),
}

/// A desk that owns its places and its store.
///
/// A notice is known by its message number, so that a number has one notice at a time. Four may be open.
#[derive(Clone)]
pub struct Desk {
    places: [u8; Place::ROW],
    store: Vec<u8>,
}

impl Default for Desk {
    fn default() -> Desk {
        Desk::new()
    }
}

impl Desk {
    /// An empty desk.
    pub fn new() -> Desk {
        Desk { places: [0; Place::ROW], store: vec![0; Place::STORE] }
    }

    /// The desk's places as they are.
    pub fn places(&self) -> [Place; Place::COUNT] {
        let (places, _) = self.places.as_chunks();
        std::array::from_fn(|at| Place::of_bytes(&places[at]))
    }

    /// Takes a packet in. The first packet of a notice opens a place.
    pub fn accept(&mut self, packet: &[u8]) -> Result<Accepted, Refusal> {
        let mut again = 0;
        accept_in(&mut self.places, &mut self.store, packet, &mut again)?;
        Ok(if again == 0 { Accepted::New } else { Accepted::Again })
    }

    /// Takes a notice away if all of its packets have come, and else tells which are missing.
    pub fn ask(&mut self, number: u8) -> Result<Asked, Refusal> {
        let (mut notice, mut missing) = (vec![0; Notice::GREATEST], vec![0; Place::MISSING]);
        let (mut count, mut language) = (0, 0);
        let answer =
            ask_in(&mut self.places, &self.store, number, &mut notice, &mut missing, &mut count, &mut language);
        match answer {
            Ok(()) => {
                notice.truncate(count);
                Ok(Asked::Complete { notice, language })
            }
            Err(Refusal::INCOMPLETE) => {
                missing.truncate(count);
                Ok(Asked::Missing(missing))
            }
            Err(refusal) => Err(refusal),
        }
    }

    /// Gives up a notice and frees its place.
    pub fn drop(&mut self, number: u8) -> Result<(), Refusal> {
        drop_in(&mut self.places, &self.store, number)
    }
}
