//! Fields that move.

/// What tells how the fields of a message lie: its bits, or the row that it is to be written from.
pub enum Numbers<'a> {
    Bits(&'a [u8]),
    Row(&'a [u32]),
}

/// A part of a field: its width, and its name.
pub type Part = (u32, &'static str);

/// A latitude and a longitude.
pub const LATITUDE: [Part; 4] = [(1, "south"), (7, "degrees N"), (6, "minutes N"), (7, "hundredths N")];
pub const LONGITUDE: [Part; 4] = [(1, "west"), (8, "degrees E"), (6, "minutes E"), (7, "hundredths E")];

/// Goes over the fields of a message one by one, and keeps the name of that which starts at a bit.
pub struct Walk<'a> {
    numbers: Numbers<'a>,
    pub at: u32,
    sought: u32,
    pub found: Option<&'static str>,
}

impl Walk<'_> {
    pub fn new(numbers: Numbers, first: u32, sought: u32) -> Walk {
        Walk { numbers, at: first, sought, found: None }
    }

    /// Whether the bit lies behind.
    pub fn is_past(&self) -> bool {
        self.at > self.sought
    }

    /// Goes over a field, and answers its number; what is missing of it counts as 0.
    pub fn next(&mut self, width: u32, name: &'static str) -> u32 {
        self.parts(&[(width, name)])
    }

    /// Goes over a field of parts.
    pub fn parts(&mut self, parts: &[Part]) -> u32 {
        let first = self.at;
        for (width, name) in parts {
            if self.at == self.sought {
                self.found = Some(name);
            }
            self.at += width;
        }
        match &mut self.numbers {
            Numbers::Bits(message) => (first..self.at).fold(0, |number, bit| number << 1 | bit_at(message, bit)),
            Numbers::Row(row) => row.split_off_first().copied().unwrap_or(0),
        }
    }
}

fn bit_at(message: &[u8], bit: u32) -> u32 {
    let byte = message.get(bit as usize / 8).copied().unwrap_or(0);
    u32::from(byte >> (7 - bit % 8) & 1)
}
