//! The characters of a notice's text.

use record::ENGLISH;

/// English text is of plain characters alone, Chinese of those and of pairs.
pub fn good(mut text: impl Iterator<Item = u8>, language: u8) -> bool {
    if language == ENGLISH {
        return text.fold(true, |good, byte| good & is_plain(byte));
    }
    while let Some(byte) = text.next() {
        let good = is_plain(byte) || text.next().is_some_and(|second| is_pair(byte, second));
        if !good {
            return false;
        }
    }
    true
}

fn is_plain(byte: u8) -> bool {
    (0x20..=0x7E).contains(&byte)
}

/// A character of GB 2312 level one, whose last row is not full.
fn is_pair(first: u8, second: u8) -> bool {
    let last = if first == 0xD7 { 0xF9 } else { 0xFE };
    (0xB0..=0xD7).contains(&first) && (0xA1..=last).contains(&second)
}
