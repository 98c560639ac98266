//! Case J, refusals whose order is easily mistaken, and places that are none of a desk.

use super::ais::with_bytes;
use super::at;
use super::packet::packet;
use crate::family::desk::Calls;
use crate::family::{Paper, Proved};
use crate::harness::Tally;
use bellnewt::desk::{Asked, Desk};
use bellnewt::notice::Notice;
use record::{Accepted, Packet, Place, Refusal, ENGLISH};

/// English, number 7, three packets: the head of the one of that number.
fn head(own: u8) -> [u8; Packet::HEAD] {
    [0xE1, 0x30, 0x70, 0xC0 | own]
}

/// The packets of a notice, its bytes and its message number.
pub fn packets() -> [Vec<u8>; 3] {
    [packet(head(0), b"KEEP"), packet(head(1), b" "), packet(head(2), b"CLEAR")]
}
const NOTICE: &[u8] = b"KEEP CLEAR";
pub const NUMBER: u8 = 7;

/// The one packet of a notice of another number.
fn single(number: u8) -> Vec<u8> {
    packet([0xE1, 0x20 | number >> 4, number << 4, 0x40], &[number])
}

/// What an asking answers: the number, what stands in front of the buffer and of the row, and the language.
type Answer = (u32, Vec<u8>, Vec<u16>, u8);

/// A language that no call has put down.
const NONE: u8 = 9;

/// A desk lent to one of the programs.
struct Lent<C: Calls> {
    places: Vec<C::Cell>,
    store: Vec<u8>,
}

impl<C: Calls> Lent<C> {
    fn new(row: &[u8]) -> Lent<C> {
        Lent { places: C::places(row), store: vec![0; Place::STORE] }
    }

    /// An empty desk that has taken packets in.
    fn holding(packets: &[&[u8]]) -> Lent<C> {
        let mut lent = Lent::new(&[0; Place::ROW]);
        packets.iter().for_each(|packet| assert_eq!(lent.accept(packet).0, 0, "a good packet"));
        lent
    }

    fn row(&self) -> Vec<u8> {
        C::row(&self.places)
    }

    /// The number, and whether it is marked "again".
    fn accept(&mut self, packet: &[u8]) -> (u32, u8) {
        let mut again = NONE;
        let code = C::accept(&mut self.places, &mut self.store, packet, &mut again);
        (code, again)
    }

    /// Asks with room for so many bytes and missing numbers.
    fn ask(&mut self, number: u8, bytes: usize, numbers: usize) -> Answer {
        let (mut notice, mut missing, mut count, mut language) = (vec![0; bytes], vec![0; numbers], 0, NONE);
        let Lent { places, store } = self;
        let code = C::ask(places, store, number, &mut notice, &mut missing, &mut count, &mut language);
        notice.truncate(if code == 0 { count } else { 0 });
        missing.truncate(if code == 9 { count } else { 0 });
        (code, notice, missing, language)
    }

    fn drop(&mut self, number: u8) -> u32 {
        C::drop(&mut self.places, &self.store, number)
    }
}

pub fn run(tally: &mut Tally) {
    cases::<Proved>("proved", tally);
    cases::<Paper>("paper", tally);
    wrapped(tally);
}

fn cases<C: Calls>(who: &str, tally: &mut Tally) {
    joined::<C>(who, tally);
    contradicted::<C>(who, tally);
    filled::<C>(who, tally);
    ordered::<C>(who, tally);
    bad_places::<C>(who, tally);
}

fn refused(code: u32) -> Answer {
    (code, Vec::new(), Vec::new(), NONE)
}

/// Case J; then the last packet, and the notice.
fn joined<C: Calls>(who: &str, tally: &mut Tally) {
    let [first, second, third] = &packets();
    let mut desk = Lent::<C>::holding(&[third, first]);
    tally.same(&format!("{who}: case J"), desk.ask(NUMBER, 0, 1), (9, Vec::new(), vec![1], NONE));
    tally.same(&format!("{who}: a row too short for case J"), desk.ask(NUMBER, 0, 0), refused(6));
    tally.same(&format!("{who}: the packet that is missing"), desk.accept(second), (0, 0));
    tally.same(&format!("{who}: a buffer too short"), desk.ask(NUMBER, NOTICE.len() - 1, 0), refused(6));
    let due = (0, NOTICE.to_vec(), Vec::new(), ENGLISH);
    tally.same(&format!("{who}: the notice"), desk.ask(NUMBER, NOTICE.len(), 0), due);
    tally.same(&format!("{who}: the notice once more"), desk.ask(NUMBER, NOTICE.len(), 0), refused(11));
}

/// Packets beside those that are held, and what they answer.
fn contradicted<C: Calls>(who: &str, tally: &mut Tally) {
    let [first, second, _] = &packets();
    let mut desk = Lent::<C>::holding(&[first, second]);
    let row = desk.row();
    for (case, packet, due) in [
        ("the same again", first.clone(), (0, 1)),
        ("other content", packet(head(0), b"KEEN"), (7, NONE)),
        ("less content", packet(head(0), b"KEE"), (7, NONE)),
        ("more content", packet(head(0), b"KEEPS"), (7, NONE)),
        ("another language", with_bytes(first, &[(1, 0x20)]), (7, NONE)),
        ("another total", with_bytes(first, &[(3, 0x80)]), (7, NONE)),
        ("another total, of a packet that is not held", with_bytes(&packet(head(2), b"A"), &[(2, 0x71)]), (7, NONE)),
    ] {
        tally.same(&format!("{who}: {case}"), (desk.accept(&packet), desk.row()), (due, row.clone()));
    }
}

/// Four open places; one is dropped and serves again.
fn filled<C: Calls>(who: &str, tally: &mut Tally) {
    let [first, second, third] = &packets();
    let mut desk = Lent::<C>::holding(&[&single(0), first, &single(255), &single(8)]);
    tally.same(&format!("{who}: a fifth notice"), desk.accept(&single(9)), (8, NONE));
    tally.same(&format!("{who}: a packet of an open notice"), desk.accept(second), (0, 0));
    tally.same(&format!("{who}: no such notice dropped"), desk.drop(9), 11);
    tally.same(&format!("{who}: a notice dropped"), desk.drop(NUMBER), 0);
    let closed = desk.row();
    tally.same(&format!("{who}: dropped once more"), (desk.drop(NUMBER), desk.row()), (11, closed));
    tally.same(&format!("{who}: its place serves again"), desk.accept(third), (0, 0));
    let mut held = [0; Place::PACKETS];
    held[2] = 5;
    let opened = Place { mark: Place::OPEN, number: NUMBER, language: ENGLISH, total: 3, held };
    let row = desk.row();
    tally.same(&format!("{who}: no other is held"), &row[Place::BYTES..][..Place::BYTES], &opened.bytes());
    tally.same(&format!("{who}: all bytes of one packet"), desk.ask(255, 1, 0), (0, vec![255], Vec::new(), 0));
    tally.same(&format!("{who}: the place of that notice"), desk.accept(&single(9)), (0, 0));
    tally.same(&format!("{who}: what is missing now"), desk.ask(NUMBER, 0, 2), (9, Vec::new(), vec![0, 1], NONE));
}

/// Packet, room and places: which is refused first. `spoiled` has an open place with no packet.
fn ordered<C: Calls>(who: &str, tally: &mut Tally) {
    let [first, ..] = packets();
    let (good, spoiled) = ([0; Place::ROW], with_bytes(&[0; Place::ROW], &[(0, Place::OPEN)]));
    let (exact, short) = (Place::STORE, Place::STORE - 1);
    for (case, packet, row, store, due) in [
        ("4 bytes before all else", &first[..4], &spoiled[..267], short, [1, 6, 6]),
        ("version 2 before all else", &with_bytes(&first, &[(1, 0x50)])[..], &spoiled[..267], short, [2, 6, 6]),
        ("own number 3 of 3 before all else", &packet(head(3), b"A")[..], &spoiled[..267], short, [at(4, 26), 6, 6]),
        ("a short store before the places", &first[..], &spoiled[..], short, [6, 6, 6]),
        ("a short row", &first[..], &good[..267], exact, [6, 6, 6]),
        ("no row", &first[..], &[], exact, [6, 6, 6]),
        ("the places before the number", &first[..], &spoiled[..], exact, [4, 4, 4]),
        ("the number at last", &first[..], &good[..], exact, [0, 11, 11]),
    ] {
        let mut answers = [0; 3];
        for (call, answer) in answers.iter_mut().enumerate() {
            let mut desk = Lent::<C>::new(row);
            desk.store.truncate(store);
            *answer = match call {
                0 => desk.accept(packet).0,
                1 => desk.ask(NUMBER, Notice::GREATEST, Place::MISSING).0,
                _ => desk.drop(NUMBER),
            };
        }
        tally.same(&format!("{who}: {case}"), answers, due);
    }
}

/// An open place as it may be, and changed; and what asking for its number then answers.
fn bad_places<C: Calls>(who: &str, tally: &mut Tally) {
    let mut held = [0; Place::PACKETS];
    held[1] = 206;
    let place = Place { mark: Place::OPEN, number: NUMBER, language: ENGLISH, total: 2, held };
    let closed = Place { mark: Place::CLOSED, ..place };
    let holding = |own: usize, bytes: u8| {
        let mut held = held;
        held[own] = bytes;
        Place { held, ..place }
    };
    for (case, first, fourth, due) in [
        ("a place", closed, place, 9),
        ("two of one number", place, place, 4),
        ("two open", Place { number: 8, ..place }, place, 9),
        ("mark 2", Place { mark: 2, ..place }, place, 4),
        ("mark 255", place, Place { mark: 255, ..place }, 4),
        ("none held", closed, holding(1, 0), 4),
        ("total 0", closed, Place { total: 0, ..place }, 4),
        ("total 1, and packet 1 held", closed, Place { total: 1, ..place }, 4),
        ("total 63", closed, Place { total: 63, ..place }, 9),
        ("total 64", closed, Place { total: 64, ..place }, 4),
        ("packet 62 of 2 held", closed, holding(62, 1), 4),
        ("207 bytes held", closed, holding(0, 207), 4),
        ("a closed place of another kind", Place { total: 64, language: 3, ..closed }, place, 9),
    ] {
        let row = [first.bytes(), closed.bytes(), closed.bytes(), fourth.bytes()].concat();
        let code = Lent::<C>::new(&row).ask(NUMBER, Notice::GREATEST, Place::MISSING).0;
        tally.same(&format!("{who}: places with {case}"), code, due);
    }
}

/// The wrapper's desk.
fn wrapped(tally: &mut Tally) {
    let [first, second, third] = &packets();
    let mut desk = Desk::new();
    tally.same("wrapper: a packet", desk.accept(third), Ok(Accepted::New));
    tally.same("wrapper: a packet again", desk.accept(third), Ok(Accepted::Again));
    tally.same("wrapper: no packet", desk.accept(&[]), Err(Refusal::SIZE));
    tally.same("wrapper: case J", desk.accept(first), Ok(Accepted::New));
    tally.same("wrapper: missing", desk.ask(NUMBER), Ok(Asked::Missing(vec![1])));
    let [place, ..] = desk.places();
    tally.same("wrapper: a place", (place.number, place.total, &place.held[..3]), (NUMBER, 3, &[4, 0, 5]));
    tally.same("wrapper: a place's missing packets", place.missing().collect(), vec![1]);
    tally.same("wrapper: the packet that is missing", desk.accept(second), Ok(Accepted::New));
    let due = Asked::Complete { notice: NOTICE.to_vec(), language: ENGLISH };
    tally.same("wrapper: the notice", desk.ask(NUMBER), Ok(due));
    tally.same("wrapper: open places", desk.places().iter().filter(|place| place.is_open()).count(), 0);
    tally.same("wrapper: nothing to drop", desk.drop(NUMBER), Err(Refusal::UNKNOWN));
    tally.same("wrapper: a packet of it", desk.accept(first), Ok(Accepted::New));
    tally.same("wrapper: it is dropped", desk.drop(NUMBER), Ok(()));
}
