//! Notices, good and damaged: mostly short ones, some with all areas and points, some of the greatest size.

pub(super) mod area;
mod draft;
mod text;

pub use draft::{draft, good_draft_of, Draft};

use super::field::{field_number, put_anywhere};
use super::{damage, Random};
use bellnewt::notice::Field;
use draft::{good_draft, HEAD};

/// The bytes of a notice up to a bit of an entry that is at an edge, or a little past it: a bad part of a point goes
/// before what is missing behind it.
fn cut_message(random: &mut Random, mut draft: Draft) -> Vec<u8> {
    let at = random.below(draft.entries.len());
    let parts = draft.entries[at].parts;
    draft.entries[at].number = parts.edge(random);
    let bits = draft.bits_before(at) as usize + random.below(parts.width() as usize + 8);
    let mut message = draft.message();
    message.truncate(bits / 8);
    message
}

/// The bytes of a notice, damaged some times or not at all.
pub fn message(random: &mut Random, draft: &Draft) -> Vec<u8> {
    if !draft.entries.is_empty() && random.one_in(16) {
        return cut_message(random, draft.clone());
    }
    let mut message = draft.message();
    for _ in 0..random.pick(&[0, 0, 0, 0, 0, 1, 1, 2]) {
        damage(random, &mut message);
    }
    message
}

/// A notice that is mostly good, so that a correction is mostly judged by its field and value, and its bytes.
pub fn message_to_correct(random: &mut Random) -> (Draft, Vec<u8>) {
    if random.one_in(4) {
        let draft = draft(random);
        let message = message(random, &draft);
        return (draft, message);
    }
    let draft = good_draft(random);
    let message = draft.message();
    (draft, message)
}

/// A field's number and its new value.
pub fn correction(random: &mut Random, draft: &Draft) -> (usize, u64) {
    let (number, parts) = if draft.entries.is_empty() || random.one_in(2) {
        let at = random.below(HEAD.len());
        (at, &HEAD[at])
    } else {
        let at = random.below(draft.entries.len());
        (Field::FIRST_ENTRY + at, draft.entries[at].parts)
    };
    (field_number(random, number), parts.new_value(random))
}

/// A notice to write: some of its numbers may be any.
pub fn draft_to_write(random: &mut Random) -> Draft {
    let mut draft = draft(random);
    put_anywhere(random, &mut draft.head);
    let any = random.word() as i64;
    match random.below(48) {
        0 => draft.count = random.pick(&[draft.count + 1, draft.count - 1, 16, any]),
        1..=3 if !draft.entries.is_empty() => {
            let entry = random.below(draft.entries.len());
            let number = &mut draft.entries[entry].number;
            *number = random.pick(&[any, *number ^ 1 << (any & 31)]);
        }
        _ => (),
    }
    draft
}
