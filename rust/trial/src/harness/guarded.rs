//! Memory that a call is lent, between guards.

use crate::inputs::Random;

/// A part that a call is lent, inside a larger allocation whose cells on both sides must stay as they are.
#[derive(Clone, PartialEq, Debug)]
pub struct Guarded<T> {
    cells: Vec<T>,
    start: usize,
    end: usize,
}

/// What lent memory is made of.
pub trait Cell {
    fn any(random: &mut Random) -> Self;
}

macro_rules! cells {
    ($($number:ty)*) => {
        $(impl Cell for $number {
            fn any(random: &mut Random) -> $number {
                random.word() as $number
            }
        })*
    };
}

cells!(u8 u16 u32 i32 i64 usize);

impl<T: Cell> Guarded<T> {
    /// Guards a part. The front guard's length varies, so that the part starts at every alignment.
    pub fn new(random: &mut Random, part: Vec<T>) -> Guarded<T> {
        let start = 16 + random.below(8);
        let end = start + part.len();
        let mut cells: Vec<T> = (0..start).map(|_| T::any(random)).collect();
        cells.extend(part);
        cells.extend((0..24).map(|_| T::any(random)));
        Guarded { cells, start, end }
    }

    /// A part of so many cells, which hold any numbers.
    pub fn any(random: &mut Random, count: usize) -> Guarded<T> {
        let part = (0..count).map(|_| T::any(random)).collect();
        Guarded::new(random, part)
    }

    pub fn part(&mut self) -> &mut [T] {
        &mut self.cells[self.start..self.end]
    }

    pub fn see(&self) -> &[T] {
        &self.cells[self.start..self.end]
    }
}

impl<T: PartialEq> Guarded<T> {
    /// Where the cells of two of them differ first, counted from the part's start.
    pub fn differs(&self, other: &Guarded<T>) -> Option<isize> {
        let at = self.cells.iter().zip(&other.cells).position(|(ours, theirs)| ours != theirs)?;
        Some(at as isize - self.start as isize)
    }
}
