//! The packet desk (01, "The desk").

use super::{need, packet};
use record::{Accepted, Packet, Place, Refusal};

/// How many bytes or numbers an asking puts down.
pub enum Answer {
    Complete { bytes: usize, language: u8 },
    Missing { count: usize },
}

type Places = [Place; Place::COUNT];

/// Takes a packet in.
pub fn accept(places: &mut [Place], store: &mut [u8], packet: &[u8]) -> Result<Accepted, Refusal> {
    let (record, content) = packet::read(packet)?;
    let places = tested(places, store)?;
    let own = usize::from(record.own);
    let at = match open(places, record.number) {
        Some(at) => {
            let place = &places[at];
            need(place.language == record.language && place.total == record.total, Refusal::CONTRADICTS)?;
            let held = held(place, at, own, store);
            if !held.is_empty() {
                need(held == content, Refusal::CONTRADICTS)?;
                return Ok(Accepted::Again);
            }
            at
        }
        None => {
            let at = places.iter().position(|place| !place.is_open()).ok_or(Refusal::TAKEN)?;
            let Packet { number, language, total, .. } = record;
            places[at] = Place { mark: Place::OPEN, number, language, total, held: [0; Place::PACKETS] };
            at
        }
    };
    places[at].held[own] = content.len() as u8;
    store[start(at, own)..][..content.len()].copy_from_slice(content);
    Ok(Accepted::New)
}

/// Joins the notice of that message number, or lists what it lacks.
pub fn ask(
    places: &mut [Place],
    store: &[u8],
    number: u8,
    notice: &mut [u8],
    missing: &mut [u16],
) -> Result<Answer, Refusal> {
    let places = tested(places, store)?;
    let at = open(places, number).ok_or(Refusal::UNKNOWN)?;
    let place = &mut places[at];
    let count = place.missing().count();
    if count > 0 {
        let row = missing.get_mut(..count).ok_or(Refusal::ROOM)?;
        row.iter_mut().zip(place.missing()).for_each(|(entry, own)| *entry = own);
        return Ok(Answer::Missing { count });
    }

    let bytes = place.held.iter().map(|bytes| usize::from(*bytes)).sum();
    let mut room = notice.get_mut(..bytes).ok_or(Refusal::ROOM)?;
    for own in 0..place.total.into() {
        let held = held(place, at, own, store);
        let (front, rest) = room.split_at_mut(held.len());
        front.copy_from_slice(held);
        room = rest;
    }
    place.mark = Place::CLOSED;
    Ok(Answer::Complete { bytes, language: place.language })
}

/// Gives up the notice of that message number.
pub fn drop(places: &mut [Place], store: &[u8], number: u8) -> Result<(), Refusal> {
    let places = tested(places, store)?;
    let at = open(places, number).ok_or(Refusal::UNKNOWN)?;
    places[at].mark = Place::CLOSED;
    Ok(())
}

/// The first tests of every call of the desk: the places that count, if they are good.
fn tested<'a>(places: &'a mut [Place], store: &[u8]) -> Result<&'a mut Places, Refusal> {
    let places: &mut Places = places.first_chunk_mut().ok_or(Refusal::ROOM)?;
    need(store.len() >= Place::STORE, Refusal::ROOM)?;
    need(places.iter().all(good), Refusal::RANGE)?;
    need((0..Place::COUNT).all(|at| alone(places, at)), Refusal::RANGE)?;
    Ok(places)
}

/// A closed place is good whatever else it says.
fn good(place: &Place) -> bool {
    if place.mark == Place::CLOSED {
        return true;
    }
    let total = usize::from(place.total);
    if !place.is_open() || !(1..=Place::PACKETS).contains(&total) {
        return false;
    }
    let (below, others) = place.held.split_at(total);
    let sizes = below.iter().all(|bytes| usize::from(*bytes) <= Packet::CONTENT);
    sizes && below.iter().any(|bytes| *bytes > 0) && others.iter().all(|bytes| *bytes == 0)
}

/// No place before it is open with its number.
fn alone(places: &Places, at: usize) -> bool {
    !places[at].is_open() || open(&places[..at], places[at].number).is_none()
}

/// The open place of a message number.
fn open(places: &[Place], number: u8) -> Option<usize> {
    places.iter().position(|place| place.is_open() && place.number == number)
}

/// Where in the store a packet of a place begins.
fn start(at: usize, own: usize) -> usize {
    at * Place::PART + own * Packet::CONTENT
}

/// What a place holds of a packet: nothing where that has not come.
fn held<'a>(place: &Place, at: usize, own: usize, store: &'a [u8]) -> &'a [u8] {
    &store[start(at, own)..][..place.held[own].into()]
}
