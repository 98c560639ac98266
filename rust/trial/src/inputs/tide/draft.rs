//! What a tide telegram is made of.

use crate::inputs::field::{field, pack, Field, Parts};
use crate::inputs::notice::area::{Entry as Number, FLAG, LATITUDE, LONGITUDE};
use crate::inputs::Random;
use bellnewt::tide::{Position, Tide};
use std::ptr;

/// The type, version and class: 0xE4, 1, 0.
const CODES_WIDTH: u32 = 12;
const CODES: u64 = 0xE42;
/// Another class, other versions, other types.
const WRONG_CODES: [u64; 8] = [0xE43, 0xE40, 0xE44, 0xE4A, 0xE12, 0xE52, 0x642, 0x000];

const COUNT: Field = field(9, 1, 511, &[1]);

static POSITION: Parts = Parts(&[FLAG]);
static PORT: Parts = Parts(&[field(6, 0, 63, &[52, 53])]);
static FORECAST: Parts = Parts(&[FLAG]);
static ENTRIES: Parts = Parts(&[COUNT]);
static TIME: Parts =
    Parts(&[FLAG, field(4, 1, 12, &[12]), field(5, 1, 31, &[31]), field(5, 0, 23, &[23]), field(6, 0, 59, &[59])]);
static SIGN: Parts = Parts(&[FLAG]);
static VALUE: Parts = Parts(&[field(10, 0, 1_023, &[0, 1])]);
/// A time's first bit alone, which is no time.
const NEXT_YEAR: i64 = 1 << 20;

/// How many bits stand before the records.
const HEAD_BITS: u32 = CODES_WIDTH + 9;

/// What a tide telegram is made of.
#[derive(Clone)]
pub struct Draft {
    codes: u64,
    /// How many records it says that it has.
    pub count: i64,
    /// The entries of its row.
    pub numbers: Vec<Number>,
    /// What its last bits are, as many as there are.
    fill: u64,
}

/// A good record of so many entries.
fn push_record(random: &mut Random, entries: usize, numbers: &mut Vec<Number>) {
    let mut push = |parts: &'static Parts, number: i64| numbers.push(Number { parts, number });
    if random.one_in(2) {
        push(&POSITION, Position::PORT.into());
        push(&PORT, PORT.good(random));
    } else {
        push(&POSITION, Position::POINT.into());
        push(&LATITUDE, LATITUDE.good(random));
        push(&LONGITUDE, LONGITUDE.good(random));
    }
    push(&FORECAST, FORECAST.good(random));
    push(&ENTRIES, entries as i64);
    for _ in 0..entries {
        let (sign, value) = (SIGN.good(random), VALUE.good(random));
        push(&TIME, TIME.good(random));
        push(&SIGN, sign);
        // A level of nothing is not negative.
        push(&VALUE, if sign == 0 { value.max(1) } else { value });
    }
}

/// A good telegram, but for its size at times, whose records have so many entries.
pub fn good_draft_with(random: &mut Random, entries: &[usize]) -> Draft {
    let mut draft = Draft { codes: CODES, count: entries.len() as i64, numbers: Vec::new(), fill: 0 };
    entries.iter().for_each(|entries| push_record(random, *entries, &mut draft.numbers));
    draft
}

/// A telegram that is good but for its size at times, which is near the greatest or far past it.
fn sized_draft(random: &mut Random) -> Draft {
    let (records, least, most) = match random.below(64) {
        0 if random.one_in(16) => (1, 509, 513),
        0 | 1 => (1, 48, 53),
        2 => (29 + random.below(8), 1, 1),
        3 => (5 + random.below(8), 2, 5),
        4..=8 => (1 + random.below(4), 1, 12),
        9..=20 => (2, 1, 3),
        _ => (1, 1, 3),
    };
    let entries: Vec<usize> = (0..records).map(|_| random.between(least, most) as usize).collect();
    good_draft_with(random, &entries)
}

/// A good telegram, mostly a short one.
pub fn good_draft(random: &mut Random) -> Draft {
    loop {
        let draft = sized_draft(random);
        if draft.bytes() <= Tide::GREATEST {
            return draft;
        }
    }
}

/// A telegram that is good but for one thing, or two, at most.
pub fn draft(random: &mut Random) -> Draft {
    let mut draft = sized_draft(random);
    match random.below(20) {
        0 => draft.codes = random.pick(&WRONG_CODES),
        1 => draft.miscount_records(random),
        2..=4 => draft.put_at_edge(random),
        5 => draft.miscount(random),
        6 => draft.drop_entry(random),
        7 => draft.put_minus_nothing(random),
        8 => draft.put(random, &TIME, |random, _| random.pick(&[0, NEXT_YEAR])),
        9 => draft.put(random, &POSITION, |_, kind| kind ^ 1),
        10..=12 => draft.fill = 1 << random.below(8),
        13 => {
            draft.put_at_edge(random);
            draft.put_at_edge(random);
            draft.fill = random.word();
        }
        _ => (),
    }
    draft
}

impl Draft {
    /// Where the numbers of one kind stand.
    fn places(&self, parts: &'static Parts) -> Vec<usize> {
        (0..self.numbers.len()).filter(|at| ptr::eq(self.numbers[*at].parts, parts)).collect()
    }

    /// Where the records open.
    pub fn openings(&self) -> Vec<usize> {
        self.places(&POSITION)
    }

    /// Makes one number of a kind another.
    fn put(&mut self, random: &mut Random, parts: &'static Parts, another: impl Fn(&mut Random, i64) -> i64) {
        let at = random.pick(&self.places(parts));
        self.numbers[at].number = another(random, self.numbers[at].number);
    }

    fn put_at_edge(&mut self, random: &mut Random) {
        let at = random.below(self.numbers.len());
        self.numbers[at].number = self.numbers[at].parts.edge(random);
    }

    /// Makes how many records it has another number than they are.
    fn miscount_records(&mut self, random: &mut Random) {
        let edge = COUNT.edge(random);
        self.count = random.pick(&[edge, self.count + 1, self.count - 1]);
    }

    /// Makes how many entries a record has another number than they are.
    fn miscount(&mut self, random: &mut Random) {
        self.put(random, &ENTRIES, |random, entries| random.pick(&[entries + 1, entries - 1, 0, 511, 512]));
    }

    /// Takes an entry out of a record, which may then have none.
    fn drop_entry(&mut self, random: &mut Random) {
        let at = random.pick(&self.places(&ENTRIES));
        self.numbers[at].number -= 1;
        self.numbers.drain(at + 1..at + 4);
    }

    /// Sign 0 with value 0.
    fn put_minus_nothing(&mut self, random: &mut Random) {
        let at = random.pick(&self.places(&SIGN));
        self.numbers[at].number = 0;
        self.numbers[at + 1].number = 0;
    }

    /// How many bits stand before a number of the row.
    pub fn bits_before(&self, at: usize) -> u32 {
        HEAD_BITS + self.numbers[..at].iter().map(|number| number.parts.width()).sum::<u32>()
    }

    fn bits(&self) -> u32 {
        self.bits_before(self.numbers.len())
    }

    /// How many bytes it takes.
    pub fn bytes(&self) -> usize {
        self.bits().div_ceil(8) as usize
    }

    pub fn count(&self) -> u16 {
        self.count as u16
    }

    pub fn row(&self) -> Vec<u32> {
        self.numbers.iter().map(|number| number.number as u32).collect()
    }

    pub fn heights(&self) -> usize {
        self.places(&VALUE).len()
    }

    /// The bytes that spell it.
    pub fn message(&self) -> Vec<u8> {
        let numbers = self.numbers.iter().map(|number| number.parts.piece(number.number));
        let fill_width = self.bits().wrapping_neg() % 8;
        let fill = (fill_width, self.fill & ((1 << fill_width) - 1));
        pack([(CODES_WIDTH, self.codes), COUNT.piece(self.count)].into_iter().chain(numbers).chain([fill]))
    }
}
