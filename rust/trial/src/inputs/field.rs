//! A field of a message, and the numbers that it is tried with.

use super::Random;

/// A field's width and range, and at least one other number of note: one that is good outside of the range, or a bound
/// that other fields set inside of it.
pub struct Field {
    width: u32,
    least: i64,
    most: i64,
    notes: &'static [i64],
}

pub const fn field(width: u32, least: i64, most: i64, notes: &'static [i64]) -> Field {
    Field { width, least, most, notes }
}

impl Field {
    pub fn width(&self) -> usize {
        self.width as usize
    }

    pub fn least(&self) -> i64 {
        self.least
    }

    /// Whether every value of its bits is good.
    pub fn is_full(&self) -> bool {
        self.most - self.least == (1 << self.width) - 1
    }

    pub fn good(&self, random: &mut Random) -> i64 {
        match random.below(8) {
            0 => self.least,
            1 => self.most,
            2 => random.pick(self.notes),
            _ => random.between(self.least, self.most),
        }
    }

    /// A number at or just past a bound of the range or of the width. A number of note that is good with one sign is not
    /// with the other.
    pub fn edge(&self, random: &mut Random) -> i64 {
        let past = 1 << self.width;
        let note = random.pick(self.notes);
        let mirrored = if self.least < 0 { -note } else { note };
        let bound = random.pick(&[self.least, self.most, note, mirrored, 0, past / 2, past]);
        bound + random.between(-1, 1)
    }

    fn spelled(&self, value: i64) -> u64 {
        value as u64 & ((1 << self.width) - 1)
    }

    /// The field's width, and the bits that spell a value in it.
    pub fn piece(&self, value: i64) -> (u32, u64) {
        (self.width, self.spelled(value))
    }

    /// The field's new value in a correction: good, at an edge, too wide, or too wide by bits above good ones.
    pub fn new_value(&self, random: &mut Random) -> u64 {
        let good = self.good(random);
        match random.below(16) {
            0 => random.word(),
            1 => u64::MAX - random.word() % 3,
            2 => self.spelled(good) | 1 << random.below(64),
            // A negative value whose sign runs on past the field is too wide.
            3 => good as u64,
            4..=9 => self.edge(random) as u64,
            _ => self.spelled(good),
        }
    }
}

impl AsRef<Field> for Field {
    fn as_ref(&self) -> &Field {
        self
    }
}

/// A number whose bits are those of one field or of several, one behind another. None of them has a sign.
pub struct Parts(pub &'static [Field]);

impl Parts {
    pub fn width(&self) -> u32 {
        self.0.iter().map(|field| field.width).sum()
    }

    fn join(&self, mut number: impl FnMut(usize, &Field) -> i64) -> i64 {
        let parts = self.0.iter().enumerate();
        parts.fold(0, |joined, (at, field)| joined << field.width | field.spelled(number(at, field)) as i64)
    }

    /// A number that is good in every part.
    pub fn good(&self, random: &mut Random) -> i64 {
        self.join(|_, field| field.good(random))
    }

    /// A number that is good but for one part, which is at or just past a bound.
    pub fn edge(&self, random: &mut Random) -> i64 {
        if let [field] = self.0 {
            return field.edge(random);
        }
        if random.one_in(8) {
            return (1 << self.width()) + random.between(-1, 1);
        }
        let edge = random.below(self.0.len());
        self.join(|at, field| if at == edge { field.edge(random) } else { field.good(random) })
    }

    /// The number's width, and the bits that spell it.
    pub fn piece(&self, number: i64) -> (u32, u64) {
        (self.width(), number as u64 & ((1 << self.width()) - 1))
    }

    /// The new number in a correction: good, at an edge, too wide, or too wide by a bit above good ones.
    pub fn new_value(&self, random: &mut Random) -> u64 {
        match random.below(16) {
            0 => random.word(),
            1 => u64::MAX - random.word() % 3,
            2 => self.good(random) as u64 | 1 << random.below(64),
            3..=9 => self.edge(random) as u64,
            _ => self.good(random) as u64,
        }
    }
}

/// Puts none, one or a few of the fields' numbers at an edge.
pub fn put_at_edges(random: &mut Random, fields: &[impl AsRef<Field>], numbers: &mut [i64]) {
    for _ in 0..random.pick(&[0, 0, 0, 1, 1, 3]) {
        let at = random.below(numbers.len());
        numbers[at] = fields[at].as_ref().edge(random);
    }
}

/// Makes one of the numbers, at times, any at all, or another in one bit.
pub fn put_anywhere(random: &mut Random, numbers: &mut [i64]) {
    let at = random.below(numbers.len());
    match random.below(12) {
        0 => numbers[at] = random.word() as i64,
        1 => numbers[at] ^= 1 << random.below(32),
        _ => (),
    }
}

/// The bytes that pieces of some width and bits fill together, highest bit first.
pub fn pack(pieces: impl Iterator<Item = (u32, u64)>) -> Vec<u8> {
    let (mut bytes, mut bits, mut held) = (Vec::new(), 0, 0);
    for (width, piece) in pieces {
        bits = bits << width | piece;
        held += width;
        while held >= 8 {
            held -= 8;
            bytes.push((bits >> held) as u8);
        }
    }
    bytes
}

/// The number that a correction names its field by: mostly `number`, else one near or far from those that there are.
pub fn field_number(random: &mut Random, number: usize) -> usize {
    match random.below(16) {
        0 => random.word() as usize,
        1 => usize::MAX - random.below(32),
        2 => (1usize << random.below(64)).wrapping_add(random.below(32)),
        3 | 4 => random.below(32),
        _ => number,
    }
}
