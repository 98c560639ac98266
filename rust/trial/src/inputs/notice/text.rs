//! The text of a notice.

use crate::inputs::Random;
use record::ENGLISH;

/// A good text of so many bytes.
pub fn good_text(random: &mut Random, language: u8, size: usize) -> Vec<u8> {
    let mut text = Vec::with_capacity(size);
    while text.len() < size {
        if language == ENGLISH || text.len() + 1 == size || random.one_in(3) {
            text.push(random.between(0x20, 0x7E) as u8);
        } else {
            text.extend(pair(random));
        }
    }
    text
}

/// A character of GB 2312 level one, at an end of its rows at times.
fn pair(random: &mut Random) -> [u8; 2] {
    if random.one_in(16) {
        return random.pick(&[[0xB0, 0xA1], [0xB0, 0xFE], [0xD6, 0xFE], [0xD7, 0xA1], [0xD7, 0xF9]]);
    }
    let first = random.between(0xB0, 0xD7) as u8;
    let last = if first == 0xD7 { 0xF9 } else { 0xFE };
    [first, random.between(0xA1, last) as u8]
}

/// Bytes at and just past the bounds of characters.
const EDGES: [u8; 16] =
    [0x00, 0x1F, 0x20, 0x7E, 0x7F, 0x80, 0xA0, 0xA1, 0xAF, 0xB0, 0xD7, 0xD8, 0xF9, 0xFA, 0xFE, 0xFF];

/// Pairs just past the bounds of the rows.
const BAD_PAIRS: [[u8; 2]; 6] = [[0xAF, 0xFE], [0xB0, 0xA0], [0xB0, 0xFF], [0xD7, 0xA0], [0xD7, 0xFA], [0xD8, 0xA1]];

/// Makes one byte of a text another, takes it out or puts one in, or a bad pair; a text without bytes gets some.
pub fn spoil(random: &mut Random, text: &mut Vec<u8>) {
    let at = random.below(text.len() + 1);
    let edge = random.pick(&EDGES);
    match random.below(5) {
        0 if at < text.len() => {
            text.remove(at);
        }
        1 => text.insert(at, edge),
        2 => {
            let pair = random.pick(&BAD_PAIRS);
            text.splice(at..at, pair);
        }
        _ if at < text.len() => text[at] = edge,
        _ => text.push(edge),
    }
}
