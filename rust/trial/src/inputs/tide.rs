//! Tide telegrams, good and damaged: mostly short ones, some of many records or entries, some of the greatest size.

mod draft;

pub use draft::{draft, good_draft_with, Draft};

use super::field::field_number;
use super::{damage, Random};
use bellnewt::tide::Tide;
use draft::good_draft;

/// The bytes of a telegram up to a bit of a number that is at an edge, or a little past it: a bad part of a point or of
/// a time goes before what is missing behind it.
fn cut_message(random: &mut Random, mut draft: Draft) -> Vec<u8> {
    // Few numbers open a record, and a byte ends before a longitude in the fourth at the soonest, so that one of six
    // records is cut there at times.
    let mut at = random.below(draft.numbers.len());
    if random.one_in(2) {
        draft = good_draft_with(random, &[1; 6]);
        at = random.pick(&draft.openings()) + random.below(3);
    }
    let parts = draft.numbers[at].parts;
    draft.numbers[at].number = parts.edge(random);
    let bits = draft.bits_before(at) as usize + random.below(parts.width() as usize + 8);
    let mut message = draft.message();
    message.truncate(bits / 8);
    message
}

/// The bytes of a telegram, damaged some times or not at all.
pub fn message(random: &mut Random, draft: &Draft) -> Vec<u8> {
    if random.one_in(12) {
        return cut_message(random, draft.clone());
    }
    let mut message = draft.message();
    if random.one_in(24) {
        message.push(0);
    }
    for _ in 0..random.pick(&[0, 0, 0, 0, 0, 1, 1, 2]) {
        damage(random, &mut message);
    }
    message
}

/// A telegram that is mostly good, so that a correction is mostly judged by its field and value, and its bytes.
pub fn message_to_correct(random: &mut Random) -> (Draft, Vec<u8>) {
    if random.one_in(4) {
        let draft = draft(random);
        let message = message(random, &draft);
        return (draft, message);
    }
    let draft = good_draft(random);
    let message = draft.message();
    (draft, message)
}

/// A field's number and its new value.
pub fn correction(random: &mut Random, draft: &Draft) -> (usize, u64) {
    let at = random.below(draft.numbers.len());
    let number = Tide::FIRST_ENTRY + at + usize::from(random.one_in(32));
    (field_number(random, number), draft.numbers[at].parts.new_value(random))
}

/// A telegram to write: its count or a number may be any.
pub fn draft_to_write(random: &mut Random) -> Draft {
    let mut draft = draft(random);
    let any = random.word() as i64;
    match random.below(32) {
        0 => draft.count = random.pick(&[draft.count + 1, draft.count - 1, 0, 511, 512, 513, any]),
        1..=3 => {
            let at = random.below(draft.numbers.len());
            let number = &mut draft.numbers[at].number;
            *number = random.pick(&[any, *number ^ 1 << (any & 31)]);
        }
        _ => (),
    }
    draft
}
