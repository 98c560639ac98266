//! What a notice says before its areas.

use crate::SHORT;

/// What a notice says before its areas and its text.
#[derive(Clone, Copy, PartialEq, Eq, Debug)]
pub struct Head {
    /// Who gives the notice, 1 to 21.
    pub source: u8,
    /// Who broadcasts it, 1 to 3.
    pub station: u8,
    /// The serial number, 1 to 9,999.
    pub serial: u16,
    /// The last two digits of the year.
    pub year: u8,
    /// The type, 1 to 8.
    pub kind: u8,
    /// The subtype: 1 to 10 for type 1, 1 to 13 for types 4 and 6, 1 to 8 for type 5, else 0.
    pub subtype: u8,
    /// When the notice ends, as the number that its 21 bits spell; 0 for not known.
    pub expiry: u32,
}

impl Head {
    /// How many entries a head takes in a row.
    pub const ROW: usize = 7;

    /// The head that a row opens with. An entry too wide for its field's type keeps its low bits.
    ///
    /// # Panics
    ///
    /// If the row has fewer than [`Head::ROW`] entries.
    #[inline]
    pub fn of_row(row: &[i64]) -> Head {
        let &[source, station, serial, year, kind, subtype, expiry] = row.first_chunk().expect(SHORT);
        Head {
            source: source as u8,
            station: station as u8,
            serial: serial as u16,
            year: year as u8,
            kind: kind as u8,
            subtype: subtype as u8,
            expiry: expiry as u32,
        }
    }

    /// The head's entries in a row.
    #[inline]
    pub fn row(&self) -> [i64; Head::ROW] {
        [
            self.source.into(),
            self.station.into(),
            self.serial.into(),
            self.year.into(),
            self.kind.into(),
            self.subtype.into(),
            self.expiry.into(),
        ]
    }
}
