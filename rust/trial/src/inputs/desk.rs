//! Calls of the desk, one after another: packets of a few notices, most of which fit together, and places damaged in
//! every way that a refusal answers.

use super::{damage, Random};
use paper::packet;
use record::{Packet, Place, ENGLISH};

/// The least message numbers of a sequence, and the most: more than there are places.
const NUMBERS: [i64; 2] = [2, 6];

/// A notice whose packets come.
struct Sent {
    number: u8,
    language: u8,
    total: u8,
    /// What its contents follow from.
    seed: u64,
    /// The packet that comes next, if they come in order.
    next: u8,
}

impl Sent {
    fn new(random: &mut Random, number: u8) -> Sent {
        let total = match random.below(8) {
            0..=3 => 1 + random.below(4),
            4 | 5 => 1 + random.below(Place::PACKETS),
            6 => Place::PACKETS - random.below(2),
            _ => 10,
        };
        let next = random.below(total) as u8;
        Sent { number, language: random.below(2) as u8, total: total as u8, seed: random.word(), next }
    }

    /// The content of a packet, the same each time. Half of the notices are as the splitter makes them.
    fn content(&self, own: u8) -> Vec<u8> {
        let random = &mut Random::new(self.seed, "content", own.into());
        let size = match (self.seed % 2, random.below(8)) {
            (0, _) if own + 1 < self.total => Packet::CONTENT,
            (_, 0) => Packet::CONTENT,
            (_, 1) => 1,
            _ => 1 + random.below(Packet::CONTENT),
        };
        random.bytes(size)
    }

    fn own(&mut self, random: &mut Random) -> u8 {
        if random.one_in(3) {
            return random.below(self.total.into()) as u8;
        }
        let own = self.next;
        self.next = (own + 1) % self.total;
        own
    }
}

/// What a call is asked to do.
#[derive(Clone, Debug)]
pub enum Request {
    Accept(Vec<u8>),
    /// Lent so many bytes, and so many entries of a row.
    Ask {
        number: u8,
        notice: usize,
        missing: usize,
    },
    Drop(u8),
}

/// Who sends packets to a desk and asks for notices.
pub struct Traffic {
    sent: Vec<Sent>,
    /// One call in so many is an asking, and one of the others a dropping.
    asks: usize,
    drops: usize,
}

impl Traffic {
    pub fn new(random: &mut Random) -> Traffic {
        let [least, most] = NUMBERS;
        let (first, count) = (random.byte(), random.between(least, most) as u8);
        // Any numbers, but no two the same.
        let numbers = (0..count).map(|at| first.wrapping_add(at * 41));
        let sent = numbers.map(|number| Sent::new(random, number)).collect();
        Traffic { sent, asks: random.pick(&[4, 10, 40]), drops: random.pick(&[8, 30, 200]) }
    }

    /// The next call, to a desk of these places.
    pub fn request(&mut self, random: &mut Random, places: &[Place]) -> Request {
        if random.one_in(self.asks) {
            return self.ask(random, places);
        }
        if random.one_in(self.drops) {
            return Request::Drop(self.number(random, places));
        }
        Request::Accept(self.packet(random, places))
    }

    /// After a notice has left the desk, another of its number may come.
    pub fn left(&mut self, random: &mut Random, number: u8) {
        if let Some(sent) = self.sent.iter_mut().find(|sent| sent.number == number) {
            *sent = Sent::new(random, number);
        }
    }

    /// A message number: of what is sent, of an open place, or any.
    fn number(&self, random: &mut Random, places: &[Place]) -> u8 {
        match random.below(8) {
            0 => random.byte(),
            1..=3 => self.sent[random.below(self.sent.len())].number,
            _ => random.pick(places).number,
        }
    }

    fn ask(&self, random: &mut Random, places: &[Place]) -> Request {
        let number = self.number(random, places);
        let place = places.iter().find(|place| place.is_open() && place.number == number);
        let held = place.map_or(0, |place| place.held.iter().map(|bytes| usize::from(*bytes)).sum());
        let missing = place.map_or(0, |place| place.missing().count());
        Request::Ask { number, notice: lent(random, held, 6), missing: lent(random, missing, 6) }
    }

    fn packet(&mut self, random: &mut Random, places: &[Place]) -> Vec<u8> {
        let at = random.below(self.sent.len());
        let sent = &mut self.sent[at];
        let own = sent.own(random);
        let mut content = sent.content(own);
        let mut record = Packet { language: sent.language, number: sent.number, total: sent.total, own };
        let open = places.iter().any(|place| place.is_open() && place.number == record.number);
        // Opened by such a packet, a place would refuse all others.
        if open {
            contradict(random, &mut record);
        }
        if random.one_in(24) {
            change(random, &mut content);
        }
        let mut packet = vec![0; Packet::HEAD + content.len()];
        packet::write(&mut packet, &record, &content).expect("a good packet");
        if random.one_in(12) {
            spoil(random, &mut packet);
        }
        packet
    }
}

/// How many of `exact` bytes or entries are lent: enough, but for one time in so many.
pub fn lent(random: &mut Random, exact: usize, short: usize) -> usize {
    match random.below(4 * short) {
        0..=2 => random.below(exact.max(1)),
        3 => exact.saturating_sub(1),
        4..=6 => exact + random.below(super::LONGEST_TAIL),
        _ => exact,
    }
}

/// Another language or total, at times.
fn contradict(random: &mut Random, record: &mut Packet) {
    match random.below(40) {
        0 => record.language ^= ENGLISH,
        1 => record.total = random.between(i64::from(record.own) + 1, Place::PACKETS as i64) as u8,
        _ => (),
    }
}

/// Another content: a byte, or the size.
fn change(random: &mut Random, content: &mut Vec<u8>) {
    let last = content.len() - 1;
    match random.below(4) {
        0 if last > 0 => content.truncate(last),
        1 if last + 1 < Packet::CONTENT => content.push(random.byte()),
        2 => content[last] ^= 1 << random.below(8),
        _ => content[random.below(last + 1)] ^= 1 << random.below(8),
    }
}

/// Makes a packet bad in a way that a packet is refused for; or else damages it anyhow.
fn spoil(random: &mut Random, packet: &mut Vec<u8>) {
    match random.below(8) {
        0 => packet[0] ^= 1 << random.below(8),
        // Another version.
        1 | 2 => packet[1] ^= 0x20 << random.below(3),
        3 => packet.truncate(random.below(Packet::HEAD + 1)),
        4 => {
            let more = random.below(5);
            packet.resize(Packet::HEAD + Packet::CONTENT + 1 + more, 0);
        }
        // The total is 0, or the own number not below it.
        5 => (packet[2], packet[3]) = (packet[2] & 0xF0, packet[3] & 0x3F),
        6 => packet[3] |= 0x3F,
        _ => damage(random, packet),
    }
}

/// The bytes of a desk's row of places, all closed, and some bytes more that are no part of it.
pub fn empty_row(random: &mut Random) -> Vec<u8> {
    let more = random.below(2 * Place::BYTES + 40);
    let mut row = random.bytes(Place::ROW + more);
    if random.one_in(2) {
        row[..Place::ROW].fill(0);
    }
    row.iter_mut().step_by(Place::BYTES).take(Place::COUNT).for_each(|mark| *mark = Place::CLOSED);
    row
}

/// Damages a place of a row. Most rows are none of a desk then.
pub fn damage_row(random: &mut Random, row: &mut [u8]) {
    let (places, _) = row.as_chunks_mut();
    let at = random.below(Place::COUNT);
    let other = (at + 1 + random.below(Place::COUNT - 1)) % Place::COUNT;
    let twin = Place::of_bytes(&places[other]).number;
    let mut place = Place::of_bytes(&places[at]);
    damage_place(random, &mut place, twin);
    places[at] = place.bytes();
}

/// Damages a place in one of the ways that places are refused for, if it is open.
fn damage_place(random: &mut Random, place: &mut Place, twin: u8) {
    let below = random.below(usize::from(place.total).clamp(1, Place::PACKETS));
    match random.below(9) {
        0 | 1 => (place.mark, place.number) = (Place::OPEN, twin),
        2 => place.held.fill(0),
        3 => place.total = 0,
        4 => place.total = random.between(64, 255) as u8,
        5 => place.held[random.below(Place::PACKETS)] = random.byte(),
        6 => place.held[below] = random.between(207, 255) as u8,
        7 => place.mark = random.between(2, 255) as u8,
        _ => place.mark = Place::OPEN,
    }
}

/// Puts anything into what a closed place says besides, or an open place behind those that count.
pub fn scribble(random: &mut Random, row: &mut [u8]) {
    let at = Place::BYTES * random.below(Place::COUNT);
    let (places, others) = row.split_at_mut(Place::ROW);
    if places[at] == Place::CLOSED {
        places[at + 1..][..Place::BYTES - 1].fill_with(|| random.byte());
    } else {
        others.iter_mut().zip(&places[at..]).for_each(|(other, byte)| *other = *byte);
    }
}
