//! Where refusals were met.

use std::collections::BTreeSet;

/// Fields that a call can refuse.
#[derive(Clone, Copy)]
pub enum Fields {
    /// Those that stand still, by the bits that they start at.
    At(&'static [u32]),
    /// Those that move, by their names.
    Named(&'static [&'static str]),
}

/// A number that a call gives, and fields that it can be given at.
pub type Places = &'static [(u8, Fields)];

/// The numbers that have a place.
pub const PLACED: [u8; 3] = [1, 4, 5];

#[derive(Clone, Copy, PartialEq, Eq, PartialOrd, Ord, Debug)]
pub enum Field {
    At(u32),
    Named(&'static str),
}

impl Fields {
    fn list(self) -> Vec<Field> {
        match self {
            Fields::At(bits) => bits.iter().copied().map(Field::At).collect(),
            Fields::Named(names) => names.iter().copied().map(Field::Named).collect(),
        }
    }
}

/// All fields of a list, each with its number.
fn due(places: Places) -> BTreeSet<(u8, Field)> {
    places.iter().flat_map(|(number, fields)| fields.list().into_iter().map(move |field| (*number, field))).collect()
}

/// The bits that a call showed, and whose they are.
#[derive(Clone, Default)]
pub struct Bits {
    bits: BTreeSet<(u8, u32)>,
    fields: BTreeSet<(u8, Field)>,
}

impl Bits {
    /// Takes up a refusal. A field without a name is known by its bit, but for 0, which is shown where there is none too.
    pub fn meet(&mut self, number: u8, bit: u32, name: Option<&'static str>) {
        if bit > 0 {
            self.bits.insert((number, bit));
        }
        match name {
            Some(name) => drop(self.fields.insert((number, Field::Named(name)))),
            None if bit > 0 => drop(self.fields.insert((number, Field::At(bit)))),
            None => (),
        }
    }

    pub fn add(&mut self, other: Bits) {
        self.bits.extend(other.bits);
        self.fields.extend(other.fields);
    }

    /// How many different bits a number was given with, but for 0.
    pub fn count(&self, number: u8) -> u64 {
        self.bits.range((number, 0)..=(number, u32::MAX)).count() as u64
    }

    /// The fields of a list that were not met.
    pub fn missing(&self, places: Places) -> Vec<(u8, Field)> {
        due(places).difference(&self.fields).copied().collect()
    }

    /// The fields that were met, but are not in a list.
    pub fn others(&self, places: Places) -> Vec<(u8, Field)> {
        self.fields.difference(&due(places)).copied().collect()
    }
}
