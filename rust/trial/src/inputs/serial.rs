//! Serial frames, good and damaged.

mod kinds;

use super::field::{field_number, pack, put_anywhere, put_at_edges, Field};
use super::{damage, far, Random, FAR};
use record::{Frame, Gljc, Txhz, Txsq, Txxx};

/// What the inputs of a kind of frame are made by.
pub trait Kind: Frame {
    /// The fields in bit order, with every number that stands between the length and the seal.
    const FIELDS: &'static [Field];
    /// Where the bit length stands among them, if there is one.
    const BITS: Option<usize> = None;
    /// How many of them stand before the content.
    const BEFORE_CONTENT: usize = Self::FIELDS.len();

    /// The most bits that the content has beside the other numbers.
    fn most_bits(_: &[i64]) -> i64 {
        LONGEST
    }

    /// Makes numbers that are good one by one good together.
    fn settle(_: &mut Random, _: &mut [i64]) {}

    /// The record that the numbers and the content make, with its run.
    fn record(parts: Parts) -> (Self, Vec<u8>) {
        (Self::of_row(&parts.numbers), parts.content)
    }
}

/// The most bits of a content.
const LONGEST: i64 = 1_680;

/// What a frame is made of: the numbers of its fields, and its content.
pub struct Parts {
    numbers: Vec<i64>,
    content: Vec<u8>,
}

/// Makes a run longer or shorter, mostly by a byte.
fn resize(random: &mut Random, run: &mut Vec<u8>) {
    match random.below(4) {
        0 => run.truncate(random.below(run.len() + 1)),
        1 => {
            run.pop();
        }
        _ => run.push(random.pick(&[0, 1])),
    }
}

/// Makes a run far longer than any that is good.
fn lengthen(random: &mut Random, run: &mut Vec<u8>) {
    let size = far(random, run.len());
    run.resize_with(size, || random.byte());
}

/// So many bits in whole bytes, the unused low bits zero.
fn content(random: &mut Random, bits: i64) -> Vec<u8> {
    let mut content = random.bytes((bits as usize).div_ceil(8));
    if let Some(last) = content.last_mut() {
        *last &= 0xFF << (-bits & 7);
    }
    content
}

/// Sets a bit of the last byte, mostly one that is fill where any is.
fn set_low_bit(random: &mut Random, content: &mut [u8]) {
    if let Some(last) = content.last_mut() {
        let most = random.below(8);
        *last |= 1 << random.below(1 + most);
    }
}

fn good_parts<F: Kind>(random: &mut Random) -> Parts {
    let mut numbers: Vec<i64> = F::FIELDS.iter().map(|field| field.good(random)).collect();
    F::settle(random, &mut numbers);
    let content = F::BITS.map_or(Vec::new(), |at| content(random, numbers[at]));
    Parts { numbers, content }
}

/// Parts that are good but for some numbers at an edge, a content of another size or a bit of its last byte.
fn parts<F: Kind>(random: &mut Random) -> Parts {
    let mut parts = good_parts::<F>(random);
    put_at_edges(random, F::FIELDS, &mut parts.numbers);
    if let Some(at) = F::BITS {
        if random.one_in(8) {
            parts.numbers[at] = F::most_bits(&parts.numbers) + random.between(-1, 1);
        }
        match random.below(12) {
            0 => resize(random, &mut parts.content),
            1 | 2 => set_low_bit(random, &mut parts.content),
            // The content follows the bit length, so that this is judged by itself.
            3..=7 => {
                let most = random.pick(&[LONGEST, LONGEST + 8]);
                parts.content = content(random, parts.numbers[at].clamp(0, most));
            }
            _ => (),
        }
    }
    parts
}

/// A good record and its run.
pub fn good_record<F: Kind>(random: &mut Random) -> (F, Vec<u8>) {
    F::record(good_parts::<F>(random))
}

/// A record to write and its run. The empty run of GLJC stays.
pub fn record<F: Kind>(random: &mut Random) -> (F, Vec<u8>) {
    let mut parts = parts::<F>(random);
    put_anywhere(random, &mut parts.numbers);
    let (record, mut run) = F::record(parts);
    if !run.is_empty() && random.one_in(12) {
        resize(random, &mut run);
    }
    if (F::BITS.is_some() || !run.is_empty()) && random.one_in(FAR) {
        lengthen(random, &mut run);
    }
    (record, run)
}

/// The bytes of a frame up to its seal, zeros for the length.
fn open<F: Kind>(parts: &Parts) -> Vec<u8> {
    let pieces = F::FIELDS.iter().zip(&parts.numbers).map(|(field, number)| field.piece(*number));
    let before = pack(pieces.clone().take(F::BEFORE_CONTENT));
    let after = pack(pieces.skip(F::BEFORE_CONTENT));
    [b"$", F::LETTERS.as_bytes(), &[0, 0], &before, &parts.content, &after].concat()
}

/// Ends a frame by its length and seal, some bits of which are turned over.
fn close(frame: &mut Vec<u8>, length_fault: u16, seal_fault: u8) {
    let length = (frame.len() + 1) as u16 ^ length_fault;
    if let Some(place) = frame.get_mut(5..7) {
        place.copy_from_slice(&length.to_be_bytes());
    }
    let sum = frame.iter().fold(0, |sum, byte| sum ^ byte);
    frame.push(sum ^ seal_fault);
}

/// The bytes of a good frame.
pub fn good_frame<F: Kind>(random: &mut Random) -> Vec<u8> {
    let mut frame = open::<F>(&good_parts::<F>(random));
    close(&mut frame, 0, 0);
    frame
}

/// The bytes of a frame, of another kind at times: damaged or not in its letters, its parts, its length and its seal,
/// before it was sealed and after.
pub fn frame<F: Kind>(random: &mut Random) -> Vec<u8> {
    if random.one_in(16) {
        return any_frame(random);
    }
    let mut parts = parts::<F>(random);
    if random.one_in(FAR) {
        lengthen(random, &mut parts.content);
        if let (Some(at), true) = (F::BITS, random.one_in(2)) {
            parts.numbers[at] = (8 * parts.content.len()) as u16 as i64;
        }
    }
    let mut frame = open::<F>(&parts);
    if random.one_in(16) {
        frame[random.below(5)] ^= 1 << random.below(8);
    }
    if random.one_in(8) {
        damage(random, &mut frame);
    }
    let length_fault = if random.one_in(16) { 1 << random.below(16) } else { 0 };
    let seal_fault = if random.one_in(16) { random.pick(&[b'$', 0xFF, 1, 0x80]) } else { 0 };
    close(&mut frame, length_fault, seal_fault);
    if random.one_in(8) {
        damage(random, &mut frame);
    }
    frame
}

/// The bytes of a frame of any kind, damaged or not.
pub fn any_frame(random: &mut Random) -> Vec<u8> {
    match random.below(4) {
        0 => frame::<Gljc>(random),
        1 => frame::<Txsq>(random),
        2 => frame::<Txxx>(random),
        _ => frame::<Txhz>(random),
    }
}

/// The bytes of a frame that is mostly good, so that a correction is mostly judged by its field and value.
pub fn frame_to_correct<F: Kind>(random: &mut Random) -> Vec<u8> {
    if random.one_in(4) {
        return frame::<F>(random);
    }
    good_frame::<F>(random)
}

/// A field's number and its new value.
pub fn correction<F: Kind>(random: &mut Random) -> (usize, u64) {
    let at = random.below(F::FIELDS.len());
    // A content and its fill have a number each.
    let number = F::ADDRESS + if at < F::BEFORE_CONTENT { at } else { at + 2 };
    (field_number(random, number), F::FIELDS[at].new_value(random))
}
