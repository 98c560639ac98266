//! Distress reports and sentences, good and damaged.

use super::field::{field, field_number, pack, put_anywhere, put_at_edges, Field};
use super::{damage, Random, LARGEST_ADDRESS};
use record::Report;
use std::iter::once;

const CODE: u64 = 0xBDC1;

/// The fields in bit order. Where "none" lies in the range, it is the range's end.
const FIELDS: [Field; Report::ROW] = [
    field(32, 0, 999_999_999, &[999_999_999]),
    field(25, -10_800_000, 10_800_000, &[10_860_000]),
    field(24, -5_400_000, 5_400_000, &[5_460_000]),
    field(5, 0, 31, &[0]),
    field(5, 0, 24, &[24]),
    field(6, 0, 60, &[60]),
    field(7, 0, 126, &[126]),
    field(9, 0, 360, &[360]),
    field(4, 0, 9, &[0]),
];

/// A good report, made of numbers that its fields take.
pub fn good_report(random: &mut Random) -> Report {
    Report::of_row(&FIELDS.each_ref().map(|field| field.good(random)))
}

/// Fields that are good but for none, one or a few at an edge.
fn row(random: &mut Random) -> [i64; Report::ROW] {
    let mut row = FIELDS.each_ref().map(|field| field.good(random));
    put_at_edges(random, &FIELDS, &mut row);
    row
}

/// A record to write.
pub fn report(random: &mut Random) -> Report {
    let mut row = row(random);
    put_anywhere(random, &mut row);
    Report::of_row(&row)
}

/// The 17 bytes of a code, the fields and the fill.
fn spell(code: u64, row: &[i64; Report::ROW], fill: u64) -> Vec<u8> {
    let fields = FIELDS.iter().zip(row).map(|(field, value)| field.piece(*value));
    pack(once((16, code)).chain(fields).chain(once((3, fill))))
}

/// The bytes of a report whose size is right.
fn whole_message(random: &mut Random) -> Vec<u8> {
    let code = match random.below(16) {
        0 => random.word() & 0xFFFF,
        1 => CODE ^ 1 << random.below(16),
        _ => CODE,
    };
    let fill = if random.one_in(6) { random.word() & 7 } else { 0 };
    spell(code, &row(random), fill)
}

/// The bytes of a report, damaged some times or not at all.
pub fn message(random: &mut Random) -> Vec<u8> {
    let mut message = whole_message(random);
    for _ in 0..random.pick(&[0, 0, 0, 0, 1, 1, 2]) {
        damage(random, &mut message);
    }
    message
}

/// The bytes of a report that is mostly good, so that a correction is mostly judged by its field and value.
pub fn message_to_correct(random: &mut Random) -> Vec<u8> {
    if random.one_in(4) {
        return message(random);
    }
    spell(CODE, &good_report(random).row(), 0)
}

/// A field's number and its new value.
pub fn correction(random: &mut Random) -> (usize, u64) {
    let at = random.below(FIELDS.len());
    (field_number(random, 1 + at), FIELDS[at].new_value(random))
}

/// A good address, of each length equally often.
pub fn good_address(random: &mut Random) -> u32 {
    let least = 10u32.pow(random.below(7) as u32);
    let most = (10 * least - 1).min(LARGEST_ADDRESS);
    random.between(least.into(), most.into()) as u32
}

/// An address to write.
pub fn address(random: &mut Random) -> u32 {
    match random.below(16) {
        0 => random.word() as u32,
        1 => random.pick(&[0, 9_999_999, 10_000_000, u32::MAX]),
        2 | 3 => LARGEST_ADDRESS - 1 + random.below(3) as u32,
        4 => random.pick(&[1, 9, 10, 99, 100, 999, 1_000, 99_999, 100_000, 999_999, 1_000_000]),
        _ => good_address(random),
    }
}

/// What stands in a sentence for its address: mostly its digits.
fn address_text(random: &mut Random) -> String {
    let address = address(random);
    match random.below(16) {
        0 => format!("0{address}"),
        1 => format!("{address:07}"),
        2 => String::new(),
        _ => address.to_string(),
    }
}

/// The bytes of a sentence: a message inside a pattern and a seal, each of the three damaged or not.
pub fn sentence(random: &mut Random) -> Vec<u8> {
    let inside = if random.one_in(16) { message(random) } else { whole_message(random) };
    let digits: String = inside.iter().map(|byte| format!("{byte:02x}")).collect();
    let mut text = format!("$CCTXA,{},2,2,A4{digits}", address_text(random)).into_bytes();
    if random.one_in(4) {
        let place = random.below(text.len());
        text[place] = random.pick(b"0129afgAFG,$*/: `{~");
    }
    if random.one_in(16) {
        damage(random, &mut text);
    }
    seal(random, &mut text);
    if random.one_in(8) {
        damage(random, &mut text);
    }
    text
}

/// Ends a sentence, mostly as it should be ended.
fn seal(random: &mut Random, text: &mut Vec<u8>) {
    let sum = text.iter().skip(1).fold(0, |sum, byte| sum ^ byte);
    let ending = match random.below(24) {
        0 => format!("*{sum:02x}\r\n"),
        1 => format!("*{:02X}\r\n", sum ^ 1 << random.below(8)),
        2 => format!("*{:02X}\r\n", sum ^ b'$'),
        3 => format!("*{sum:02X}\n\r"),
        4 => format!("#{sum:02X}\r\n"),
        _ => format!("*{sum:02X}\r\n"),
    };
    text.extend(ending.into_bytes());
}
