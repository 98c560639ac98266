//! The proved functions that no call for C goes through, so that they too are compiled and run: the desk over a lent row of
//! places, and the slices that `content` returns. No box links them; only `trial` does.
//!
//! The contract of the calls is that of the library's (`bellnewt`): a pointer lends as many entries as are said beside it,
//! and what a call may write to is lent to it alone.

extern "C" {
    fn trial_desk_accept(
        said: *mut usize,
        said_len: usize,
        places: *mut Place,
        places_len: usize,
        store: *mut u8,
        store_len: usize,
        packet: *const u8,
        packet_len: usize,
    ) -> u32;
    fn trial_desk_ask(
        said: *mut usize,
        said_len: usize,
        places: *mut Place,
        places_len: usize,
        store: *const u8,
        store_len: usize,
        number: u8,
        notice: *mut u8,
        notice_len: usize,
        missing: *mut u16,
        missing_len: usize,
    ) -> u32;
    fn trial_desk_drop(
        said: *mut usize,
        said_len: usize,
        places: *mut Place,
        places_len: usize,
        store: *const u8,
        store_len: usize,
        number: u8,
    ) -> u32;
    fn trial_txsq_content(frame: *const u8, len: usize, bytes: *mut u8, bytes_len: usize) -> usize;
    fn trial_txxx_content(frame: *const u8, len: usize, bytes: *mut u8, bytes_len: usize) -> usize;
    fn trial_packet_content(packet: *const u8, len: usize, bytes: *mut u8, bytes_len: usize) -> usize;
}

/// A place as the desk itself has it. Its mark is a `bool`, so that a row of them can't have another than 0 and 1.
#[repr(C)]
#[derive(Clone, Copy, PartialEq, Eq, Debug)]
pub struct Place {
    pub open: bool,
    pub number: u8,
    pub language: u8,
    pub total: u8,
    pub sizes: [u8; record::Place::PACKETS],
}

impl From<record::Place> for Place {
    fn from(place: record::Place) -> Place {
        let record::Place { mark, number, language, total, held } = place;
        Place { open: mark != record::Place::CLOSED, number, language, total, sizes: held }
    }
}

impl From<Place> for record::Place {
    fn from(place: Place) -> record::Place {
        let Place { open, number, language, total, sizes } = place;
        record::Place { mark: u8::from(open), number, language, total, held: sizes }
    }
}

/// What a reply says besides its number: whether the packet came again; how many bytes are handed out, or how many numbers
/// are missing; and the language. What a reply does not say stays as it was.
pub type Said = [usize; 3];

/// `desk::accept`.
pub fn accept(said: &mut Said, places: &mut [Place], store: &mut [u8], packet: &[u8]) -> u32 {
    // SAFETY: slices are such pointers with their lengths, and a `&mut` overlaps no other.
    unsafe {
        trial_desk_accept(
            said.as_mut_ptr(),
            said.len(),
            places.as_mut_ptr(),
            places.len(),
            store.as_mut_ptr(),
            store.len(),
            packet.as_ptr(),
            packet.len(),
        )
    }
}

/// `desk::ask`.
pub fn ask(
    said: &mut Said,
    places: &mut [Place],
    store: &[u8],
    number: u8,
    notice: &mut [u8],
    missing: &mut [u16],
) -> u32 {
    // SAFETY: see `accept`.
    unsafe {
        trial_desk_ask(
            said.as_mut_ptr(),
            said.len(),
            places.as_mut_ptr(),
            places.len(),
            store.as_ptr(),
            store.len(),
            number,
            notice.as_mut_ptr(),
            notice.len(),
            missing.as_mut_ptr(),
            missing.len(),
        )
    }
}

/// `desk::drop`.
pub fn drop(said: &mut Said, places: &mut [Place], store: &[u8], number: u8) -> u32 {
    // SAFETY: see `accept`.
    unsafe {
        trial_desk_drop(
            said.as_mut_ptr(),
            said.len(),
            places.as_mut_ptr(),
            places.len(),
            store.as_ptr(),
            store.len(),
            number,
        )
    }
}

/// `txsq::content`, copied to the front of the bytes where it fits. Answers how many bytes it has.
pub fn txsq_content(frame: &[u8], bytes: &mut [u8]) -> usize {
    // SAFETY: see `accept`.
    unsafe { trial_txsq_content(frame.as_ptr(), frame.len(), bytes.as_mut_ptr(), bytes.len()) }
}

/// `txxx::content`, in the same way.
pub fn txxx_content(frame: &[u8], bytes: &mut [u8]) -> usize {
    // SAFETY: see `accept`.
    unsafe { trial_txxx_content(frame.as_ptr(), frame.len(), bytes.as_mut_ptr(), bytes.len()) }
}

/// `packet::content`, in the same way.
pub fn packet_content(packet: &[u8], bytes: &mut [u8]) -> usize {
    // SAFETY: see `accept`.
    unsafe { trial_packet_content(packet.as_ptr(), packet.len(), bytes.as_mut_ptr(), bytes.len()) }
}
