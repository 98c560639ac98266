//! What a notice is made of.

use super::area::{self, Entry};
use super::text;
use crate::inputs::field::{field, pack, Field, Parts};
use crate::inputs::{language, Random};
use bellnewt::notice::{Head, Notice};

/// The numbers of the head in bit order. Which subtypes are good hangs on the type.
pub const HEAD: [Parts; Head::ROW] = [
    Parts(&[field(5, 1, 21, &[21])]),
    Parts(&[field(4, 1, 3, &[3])]),
    Parts(&[field(14, 1, 9_999, &[9_999])]),
    Parts(&[field(7, 0, 99, &[99])]),
    Parts(&[field(4, 1, 8, &[1, 4, 5, 6])]),
    Parts(&[field(4, 0, 13, &[1, 8, 10])]),
    Parts(&[
        field(1, 0, 1, &[0]),
        field(4, 1, 12, &[12]),
        field(5, 1, 31, &[31]),
        field(5, 0, 23, &[23]),
        field(6, 0, 59, &[59]),
    ]),
];
const KIND: usize = 4;
const SUBTYPE: usize = 5;
const EXPIRY: usize = 6;
/// The expiry's first bit alone, which is no expiry.
const NEXT_YEAR: i64 = 1 << 20;
const COUNT: Field = field(4, 0, 15, &[1]);

/// How many bits stand before the areas.
const HEAD_BITS: u32 = 63;

/// What a notice is made of.
#[derive(Clone)]
pub struct Draft {
    pub language: u8,
    pub head: [i64; Head::ROW],
    /// How many areas it says that it has.
    pub count: i64,
    pub entries: Vec<Entry>,
    pub text: Vec<u8>,
    /// What its last bits are, as many as there are.
    fill: u64,
}

fn good_head(random: &mut Random) -> [i64; HEAD.len()] {
    let mut head = HEAD.each_ref().map(|parts| parts.good(random));
    let (least, most) = match head[KIND] {
        1 => (1, 10),
        4 | 6 => (1, 13),
        5 => (1, 8),
        _ => (0, 0),
    };
    let between = random.between(least, most);
    head[SUBTYPE] = random.pick(&[least, most, between]);
    if random.one_in(8) {
        head[EXPIRY] = 0;
    }
    head
}

/// A good notice with a text whose size is chosen by how many bytes stand before it.
fn draft_with(random: &mut Random, text_size: impl FnOnce(&mut Random, usize) -> usize) -> Draft {
    let language = random.below(2) as u8;
    let (count, entries) = area::good_areas(random);
    let mut draft = Draft { language, head: good_head(random), count, entries, text: Vec::new(), fill: 0 };
    let size = text_size(random, draft.bytes());
    draft.text = text::good_text(random, language, size);
    draft
}

/// A good notice of that size, or of the least that its areas need.
pub fn good_draft_of(random: &mut Random, bytes: usize) -> Draft {
    draft_with(random, |_, before| bytes.saturating_sub(before))
}

/// A notice that is good but for its size at times, which is near the greatest.
fn sized_draft(random: &mut Random) -> Draft {
    draft_with(random, |random, before| match random.below(96) {
        0 | 1 => Notice::GREATEST - 1 - before + random.below(8),
        2 => random.below(Notice::GREATEST - before),
        3..=24 => 0,
        25..=48 => random.below(200),
        _ => random.below(30),
    })
}

/// A good notice, mostly a short one.
pub fn good_draft(random: &mut Random) -> Draft {
    let mut draft = sized_draft(random);
    let past = draft.bytes().saturating_sub(Notice::GREATEST);
    // Half of a pair is left at times, so the text is made anew.
    if past > 0 {
        draft.text = text::good_text(random, draft.language, draft.text.len() - past);
    }
    draft
}

/// A notice that is good but for one thing, or two, at most.
pub fn draft(random: &mut Random) -> Draft {
    let mut draft = sized_draft(random);
    draft.language = language(random, draft.language);
    match random.below(16) {
        0 | 1 => draft.put_head_at_edge(random),
        2..=4 => draft.put_entry_at_edge(random),
        5 if random.one_in(2) => draft.drop_point(random),
        5 => draft.count = COUNT.edge(random),
        6 | 7 => text::spoil(random, &mut draft.text),
        8..=10 => draft.fill = 1 << random.below(8),
        11 => {
            draft.put_entry_at_edge(random);
            draft.put_entry_at_edge(random);
            draft.put_head_at_edge(random);
        }
        _ => (),
    }
    draft
}

impl Draft {
    fn put_head_at_edge(&mut self, random: &mut Random) {
        let at = random.below(HEAD.len());
        let is_bare_year = at == EXPIRY && random.one_in(4);
        self.head[at] = if is_bare_year { NEXT_YEAR } else { HEAD[at].edge(random) };
    }

    /// The head stands in for areas where there are none.
    fn put_entry_at_edge(&mut self, random: &mut Random) {
        if self.entries.is_empty() {
            return self.put_head_at_edge(random);
        }
        let at = random.below(self.entries.len());
        self.entries[at].number = self.entries[at].parts.edge(random);
    }

    /// Takes a point out of an area, which may then have too few.
    fn drop_point(&mut self, random: &mut Random) {
        let counts: Vec<usize> = (0..self.entries.len()).filter(|at| self.entries[*at].is_count()).collect();
        if !counts.is_empty() {
            let at = random.pick(&counts);
            self.entries[at].number -= 1;
            self.entries.drain(at + 1..at + 3);
        }
    }

    /// How many bits stand before an entry of the areas.
    pub fn bits_before(&self, at: usize) -> u32 {
        HEAD_BITS + self.entries[..at].iter().map(|entry| entry.parts.width()).sum::<u32>()
    }

    fn bits_before_text(&self) -> u32 {
        self.bits_before(self.entries.len())
    }

    /// How many bytes it takes.
    pub fn bytes(&self) -> usize {
        self.bits_before_text().div_ceil(8) as usize + self.text.len()
    }

    pub fn head(&self) -> Head {
        Head::of_row(&self.head)
    }

    pub fn count(&self) -> u8 {
        self.count as u8
    }

    /// The areas as a row.
    pub fn areas(&self) -> Vec<u32> {
        self.entries.iter().map(|entry| entry.number as u32).collect()
    }

    pub fn points(&self) -> usize {
        self.entries.iter().filter(|entry| entry.is_latitude()).count()
    }

    /// The bytes that spell it.
    pub fn message(&self) -> Vec<u8> {
        let head = HEAD.iter().zip(&self.head).map(|(parts, number)| parts.piece(*number));
        let entries = self.entries.iter().map(|entry| entry.parts.piece(entry.number));
        let text = self.text.iter().map(|byte| (8, u64::from(*byte)));
        let fill_width = self.bits_before_text().wrapping_neg() % 8;
        let fill = (fill_width, self.fill & ((1 << fill_width) - 1));
        pack(head.chain([COUNT.piece(self.count)]).chain(entries).chain(text).chain([fill]))
    }
}
