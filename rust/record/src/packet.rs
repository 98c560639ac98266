//! The packet.

/// A notice's text is in Chinese.
pub const CHINESE: u8 = 0;
/// A notice's text is in English.
pub const ENGLISH: u8 = 1;

/// What a packet says before its content. The content is lent beside it.
#[derive(Clone, Copy, PartialEq, Eq, Debug)]
pub struct Packet {
    /// [`CHINESE`] or [`ENGLISH`].
    pub language: u8,
    /// The message number, the same in all packets of a notice.
    pub number: u8,
    /// How many packets the notice has, 1 to 63.
    pub total: u8,
    /// Which of them this is, counted from 0.
    pub own: u8,
}

impl Packet {
    /// A packet's bytes without its content.
    pub const HEAD: usize = 4;
    /// The most bytes of content.
    pub const CONTENT: usize = 206;
    /// How many entries a packet takes in a row: its numbers, where the content starts, and how many bytes it has.
    pub const ROW: usize = 6;

    /// The language's field number: 1 bit.
    pub const LANGUAGE: usize = 2;
    /// The message number's field number: 8 bits.
    pub const NUMBER: usize = 3;
    /// The total's field number: 6 bits.
    pub const TOTAL: usize = 4;
    /// The own number's field number: 6 bits.
    pub const OWN: usize = 5;

    /// The numbers that a row opens with. An entry too wide for its field's type keeps its low bits.
    #[inline]
    pub fn of_row(row: &[i64; Packet::ROW]) -> Packet {
        let &[language, number, total, own, ..] = row;
        Packet { language: language as u8, number: number as u8, total: total as u8, own: own as u8 }
    }
}
