//! AIS messages, good and damaged, and what slots are counted for.

mod area;
mod piece;
mod warning;

use super::field::{field_number, pack, put_anywhere, put_at_edges, Field};
use super::{damage, Random};
use piece::{Piece, Role};
use record::{Ais, Area, Warning};

/// What the inputs of a message are made by.
pub trait Kind: Ais {
    /// A layout for each warning type or shape, in the order of their codes: every piece in bit order. A number of the
    /// record that a layout has not is a piece of no bits, so that all layouts have them in the order of a row.
    const LAYOUTS: &'static [&'static [Piece]];
    /// The times that a correction names as one field each.
    const TIMES: &'static [(usize, Field)];
}

fn good_numbers(random: &mut Random, layout: &[Piece]) -> Vec<i64> {
    layout.iter().map(|piece| piece.field.good(random)).collect()
}

/// The record that a layout's numbers make. Its warning type or shape is the layout's own.
fn of_numbers<M: Kind>(layout: &[Piece], numbers: &[i64]) -> M {
    let entry = |(piece, number): (&Piece, &i64)| match piece.role {
        Role::Code | Role::Fill => None,
        Role::Variant => Some(piece.field.least()),
        Role::Part | Role::Own(_) => Some(*number),
    };
    M::of_row(&layout.iter().zip(numbers).filter_map(entry).collect::<Vec<i64>>())
}

/// A good record of any type or shape.
pub fn good_record<M: Kind>(random: &mut Random) -> M {
    let layout = random.pick(M::LAYOUTS);
    of_numbers(layout, &good_numbers(random, layout))
}

/// A record to write, of the type or shape that comes at a place in their order.
pub fn record<M: Kind>(random: &mut Random, variant: usize) -> M {
    let layout = M::LAYOUTS[variant];
    let mut numbers = good_numbers(random, layout);
    put_at_edges(random, layout, &mut numbers);
    put_anywhere(random, &mut numbers);
    of_numbers(layout, &numbers)
}

/// The bytes that a layout's numbers spell.
fn spell(layout: &[Piece], numbers: &[i64]) -> Vec<u8> {
    pack(layout.iter().zip(numbers).map(|(piece, number)| piece.field.piece(*number)))
}

/// The bytes of a good message of a type or shape.
pub fn good_message<M: Kind>(random: &mut Random, variant: usize) -> Vec<u8> {
    let layout = M::LAYOUTS[variant];
    spell(layout, &good_numbers(random, layout))
}

/// The bytes of a good message of any type or shape.
pub fn any_good_message<M: Kind>(random: &mut Random) -> Vec<u8> {
    let variant = random.below(M::LAYOUTS.len());
    good_message::<M>(random, variant)
}

/// Where one of the pieces stands that `is` picks.
fn place(random: &mut Random, layout: &[Piece], is: fn(&Piece) -> bool) -> usize {
    let places: Vec<usize> = (0..layout.len()).filter(|at| is(&layout[*at])).collect();
    random.pick(&places)
}

/// Another number for a code: any, one that another message has there, or one near.
fn other_code(random: &mut Random, code: &Field) -> i64 {
    match random.below(4) {
        0 => random.word() as i64,
        1 => random.pick(&[6, 8, 3, 11]),
        _ => code.edge(random),
    }
}

/// The bytes of a message whose size is right.
fn whole_message<M: Kind>(random: &mut Random) -> Vec<u8> {
    let layout = random.pick(M::LAYOUTS);
    let mut numbers = good_numbers(random, layout);
    put_at_edges(random, layout, &mut numbers);
    match random.below(12) {
        // Whatever stands first among many faults is answered.
        0 => {
            let any = layout.iter().zip(&mut numbers).filter(|(piece, _)| !piece.is_code());
            any.for_each(|(_, number)| *number = random.word() as i64);
        }
        1 | 2 => {
            let at = place(random, layout, Piece::is_fill);
            numbers[at] |= 1 << random.below(layout[at].field.width());
        }
        3 | 4 => {
            let at = place(random, layout, Piece::is_code);
            numbers[at] = other_code(random, &layout[at].field);
        }
        5 | 6 => {
            let at = place(random, layout, Piece::has_range);
            numbers[at] = layout[at].field.edge(random);
        }
        _ => (),
    }
    spell(layout, &numbers)
}

/// The bytes of a message, of the other kind at times, damaged some times or not at all.
pub fn message<M: Kind>(random: &mut Random) -> Vec<u8> {
    if random.one_in(16) {
        return any_message(random);
    }
    let mut message = whole_message::<M>(random);
    for _ in 0..random.pick(&[0, 0, 0, 0, 1, 1, 2]) {
        damage(random, &mut message);
    }
    message
}

/// The bytes of a message of either kind, damaged or not.
pub fn any_message(random: &mut Random) -> Vec<u8> {
    match random.below(2) {
        0 => message::<Warning>(random),
        _ => message::<Area>(random),
    }
}

/// The bytes of a message that is mostly good and of a type or shape, so that a correction is mostly judged by its field
/// and value.
pub fn message_to_correct<M: Kind>(random: &mut Random, variant: usize) -> Vec<u8> {
    if random.one_in(4) {
        return message::<M>(random);
    }
    good_message::<M>(random, variant)
}

/// A field's number and its new value: mostly a field of a type or shape, else of any.
pub fn correction<M: Kind>(random: &mut Random, variant: usize) -> (usize, u64) {
    let layout = if random.one_in(8) { random.pick(M::LAYOUTS) } else { M::LAYOUTS[variant] };
    let own = layout.iter().filter_map(|piece| match piece.role {
        Role::Own(number) => Some((number, &piece.field)),
        _ => None,
    });
    let times = M::TIMES.iter().map(|(number, time)| (*number, time));
    let (number, field) = random.pick(&own.chain(times).collect::<Vec<_>>());
    (field_number(random, number), field.new_value(random))
}

/// The most data bytes of each number of slots, by message.
const LIMITS: [(u8, [usize; 5]); 2] = [(6, [8, 36, 64, 92, 117]), (8, [12, 40, 68, 96, 121])];

/// A message number, and a number of data bytes that is good for it.
pub fn good_slots(random: &mut Random) -> (u8, usize) {
    let (message, limits) = random.pick(&LIMITS);
    (message, 1 + random.below(limits[4]))
}

/// A message number and a number of data bytes, good or at an edge or anywhere.
pub fn slots(random: &mut Random) -> (u8, usize) {
    let (message, limits) = random.pick(&LIMITS);
    let number = match random.below(16) {
        0 => random.byte(),
        1 => random.pick(&[0, 5, 7, 9, 14, 0xFF]),
        2 => message ^ 1 << random.below(8),
        _ => message,
    };
    let bytes = match random.below(16) {
        0 => random.word() as usize,
        1 => random.pick(&[0, 1, 0x100, 0x1_0000, usize::MAX]),
        2 => (1usize << random.below(usize::BITS as usize)).wrapping_add(random.below(limits[4])),
        3..=8 => random.pick(&limits) - 1 + random.below(3),
        _ => random.below(limits[4] + 8),
    };
    (number, bytes)
}
