//! Packets, good and damaged, and contents to split.

use super::field::{field, field_number, pack, put_anywhere, put_at_edges, Field};
use super::{damage, far, language, Random, FAR};
use bellnewt::notice::Notice;
use record::Packet;

/// The fields before the content in bit order, so that each stands at its own number.
const FIELDS: [Field; 6] = [
    field(8, 0xE1, 0xE1, &[0xE1]),
    field(3, 1, 1, &[1]),
    field(1, 0, 1, &[0]),
    field(8, 0, 255, &[0]),
    field(6, 1, 63, &[1]),
    field(6, 0, 62, &[0]),
];

type Numbers = [i64; FIELDS.len()];

fn good_numbers(random: &mut Random) -> Numbers {
    let mut numbers = FIELDS.each_ref().map(|field| field.good(random));
    let last = numbers[Packet::TOTAL] - 1;
    if numbers[Packet::OWN] > last {
        numbers[Packet::OWN] = if random.one_in(4) { last } else { random.between(0, last) };
    }
    numbers
}

/// Numbers that are good but for some at an edge, or an own number near the total.
fn numbers(random: &mut Random) -> Numbers {
    let mut numbers = good_numbers(random);
    put_at_edges(random, &FIELDS, &mut numbers);
    if random.one_in(12) {
        numbers[Packet::OWN] = numbers[Packet::TOTAL] + random.between(-1, 1);
    }
    numbers
}

fn record_of(numbers: &Numbers) -> Packet {
    let &[_, _, language, number, total, own] = numbers;
    Packet { language: language as u8, number: number as u8, total: total as u8, own: own as u8 }
}

fn good_content(random: &mut Random) -> Vec<u8> {
    let size = match random.below(8) {
        0 => 1,
        1 => Packet::CONTENT,
        _ => 1 + random.below(Packet::CONTENT),
    };
    random.bytes(size)
}

/// A content, of a size that no packet has at times.
fn content(random: &mut Random) -> Vec<u8> {
    if random.one_in(FAR) {
        let meant = 1 + random.below(Packet::CONTENT);
        let size = far(random, meant);
        return random.bytes(size);
    }
    match random.below(16) {
        0 => Vec::new(),
        1 => random.bytes(Packet::CONTENT + 1),
        2 => {
            let more = random.below(300);
            random.bytes(Packet::CONTENT + more)
        }
        _ => good_content(random),
    }
}

/// A good record and its content.
pub fn good_record(random: &mut Random) -> (Packet, Vec<u8>) {
    (record_of(&good_numbers(random)), good_content(random))
}

/// A record to write and its content.
pub fn record(random: &mut Random) -> (Packet, Vec<u8>) {
    let mut numbers = numbers(random);
    put_anywhere(random, &mut numbers);
    (record_of(&numbers), content(random))
}

fn spell(numbers: &Numbers, content: &[u8]) -> Vec<u8> {
    let head = pack(FIELDS.iter().zip(numbers).map(|(field, number)| field.piece(*number)));
    [&head, content].concat()
}

/// The bytes of a good packet.
pub fn good_packet(random: &mut Random) -> Vec<u8> {
    spell(&good_numbers(random), &good_content(random))
}

/// The bytes of a packet, damaged some times or not at all.
pub fn packet(random: &mut Random) -> Vec<u8> {
    let mut packet = spell(&numbers(random), &content(random));
    for _ in 0..random.pick(&[0, 0, 0, 0, 1, 1, 2]) {
        damage(random, &mut packet);
    }
    packet
}

/// The bytes of a packet that is mostly good, so that a correction is mostly judged by its field and value.
pub fn packet_to_correct(random: &mut Random) -> Vec<u8> {
    if random.one_in(4) {
        return packet(random);
    }
    good_packet(random)
}

/// A field's number and its new value.
pub fn correction(random: &mut Random) -> (usize, u64) {
    let number = random.below(FIELDS.len());
    (field_number(random, number), FIELDS[number].new_value(random))
}

/// A content to split, and which packet of it is asked for.
#[derive(Clone, Debug)]
pub struct Split {
    pub language: u8,
    pub number: u8,
    pub packet: usize,
    pub content: Vec<u8>,
}

impl Split {
    /// The packet's bytes, if it is one of the content's.
    pub fn bytes(&self) -> usize {
        let left = self.content.len().saturating_sub(self.packet.saturating_mul(Packet::CONTENT));
        Packet::HEAD + left.min(Packet::CONTENT)
    }
}

/// A content of that size, and any packet of it.
pub fn good_split(random: &mut Random, size: usize) -> Split {
    Split {
        language: random.below(2) as u8,
        number: random.byte(),
        packet: random.below(size.div_ceil(Packet::CONTENT)),
        content: random.bytes(size),
    }
}

/// A size far past the greatest notice's: any, or one that a count of packets in 6 or 8 bits can't tell from the one that is
/// meant.
fn far_size(random: &mut Random, meant: usize) -> usize {
    match random.below(8) {
        0 => meant + (Packet::CONTENT << 6),
        1 => meant + (Packet::CONTENT << 8),
        2 => 300_000 + random.below(Packet::CONTENT),
        3 | 4 => Notice::GREATEST + random.below(70_000 - Notice::GREATEST),
        _ => far(random, meant),
    }
}

/// A content, mostly good and of few packets, and a packet number at the last, past it or anywhere.
pub fn split(random: &mut Random) -> Split {
    let few = random.below(6);
    let mut size = match random.below(32) {
        0 => 0,
        1 => Notice::GREATEST - 1 + random.below(4),
        2 => random.below(Notice::GREATEST),
        3..=12 => (Packet::CONTENT * (1 + few)).saturating_add_signed(random.between(-1, 1) as isize),
        _ => 1 + random.below(Packet::CONTENT * (1 + few)),
    };
    if random.one_in(FAR) {
        size = far_size(random, size);
    }
    let mut split = good_split(random, size);
    let total = size.div_ceil(Packet::CONTENT);
    split.language = language(random, split.language);
    match random.below(12) {
        0 => split.packet = random.word() as usize,
        1 => split.packet = total + random.below(66),
        2 => split.packet = total,
        3 | 4 => split.packet = total.saturating_sub(1),
        // A number whose low bits are those of a packet.
        5 => split.packet |= 1 << (8 + random.below(56)),
        _ => (),
    }
    split
}
