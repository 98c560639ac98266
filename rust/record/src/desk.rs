//! The packet desk.

use crate::Packet;

/// One of the desk's four places. The bytes of its packets are in the desk's store.
#[derive(Clone, Copy, PartialEq, Eq, Debug)]
pub struct Place {
    /// [`Place::CLOSED`] or [`Place::OPEN`]. The other fields of a closed place mean nothing.
    pub mark: u8,
    /// The message number.
    pub number: u8,
    /// [`CHINESE`](crate::CHINESE) or [`ENGLISH`](crate::ENGLISH).
    pub language: u8,
    /// How many packets the notice has, 1 to 63.
    pub total: u8,
    /// How many bytes of each packet are held: 0 where it is not held.
    pub held: [u8; Place::PACKETS],
}

impl Place {
    /// The mark of a place that has no notice.
    pub const CLOSED: u8 = 0;
    /// The mark of a place that has a notice.
    pub const OPEN: u8 = 1;
    /// How many places the desk has.
    pub const COUNT: usize = 4;
    /// The most packets of a notice.
    pub const PACKETS: usize = 63;
    /// The most packets that can be missing: a notice is opened by one.
    pub const MISSING: usize = Place::PACKETS - 1;
    /// The bytes that a place is lent as: mark, number, language, total, and how many are held of each packet.
    pub const BYTES: usize = 4 + Place::PACKETS;
    /// The bytes that all places are lent as.
    pub const ROW: usize = Place::COUNT * Place::BYTES;
    /// The bytes of a place's part of the store.
    pub const PART: usize = Place::PACKETS * Packet::CONTENT;
    /// The bytes of the store.
    pub const STORE: usize = Place::COUNT * Place::PART;

    /// Whether the place has a notice.
    #[inline]
    pub fn is_open(&self) -> bool {
        self.mark == Place::OPEN
    }

    /// The place that these bytes spell.
    #[inline]
    pub fn of_bytes(bytes: &[u8; Place::BYTES]) -> Place {
        let &[mark, number, language, total, ref held @ ..] = bytes;
        Place { mark, number, language, total, held: *held }
    }

    /// The bytes that spell the place.
    #[inline]
    pub fn bytes(&self) -> [u8; Place::BYTES] {
        let mut bytes = [0; Place::BYTES];
        let (head, held) = bytes.split_at_mut(4);
        head.copy_from_slice(&[self.mark, self.number, self.language, self.total]);
        held.copy_from_slice(&self.held);
        bytes
    }

    /// The numbers of the packets that an open place does not hold, rising.
    #[inline]
    pub fn missing(&self) -> impl Iterator<Item = u16> + '_ {
        let held = self.held.iter().take(self.total.into());
        (0..).zip(held).filter(|(_, bytes)| **bytes == 0).map(|(own, _)| own)
    }
}

/// How the desk took a packet.
#[derive(Clone, Copy, PartialEq, Eq, Debug)]
pub enum Accepted {
    /// The desk holds it now.
    New,
    /// The desk held it already, with the same content.
    Again,
}
