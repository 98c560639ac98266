//! The areas of a notice.

use crate::inputs::field::{field, Field, Parts};
use crate::inputs::Random;
use bellnewt::notice::{Area, Notice};
use std::ptr;

/// An entry of the row that lends the areas: which number it is, and what it is.
#[derive(Clone)]
pub struct Entry {
    pub parts: &'static Parts,
    pub number: i64,
}

const MINUTES: Field = field(6, 0, 60, &[59]);
const HUNDREDTHS: Field = field(7, 0, 99, &[0]);
pub const FLAG: Field = field(1, 0, 1, &[0]);

static KIND: Parts = Parts(&[field(3, 0, 4, &[4])]);
static CODE: Parts = Parts(&[field(8, 0, 255, &[0])]);
static COUNT: Parts = Parts(&[field(4, 1, 15, &[2, 3])]);
pub static LATITUDE: Parts = Parts(&[FLAG, field(7, 0, 90, &[0]), MINUTES, HUNDREDTHS]);
pub static LONGITUDE: Parts = Parts(&[FLAG, field(8, 0, 180, &[0]), MINUTES, HUNDREDTHS]);
static RADIUS: Parts = Parts(&[field(10, 0, 1_023, &[999])]);
static UNIT: Parts = Parts(&[field(2, 0, 3, &[2])]);

impl Entry {
    pub fn is_count(&self) -> bool {
        ptr::eq(self.parts, &COUNT)
    }

    pub fn is_latitude(&self) -> bool {
        ptr::eq(self.parts, &LATITUDE)
    }
}

/// Good areas, mostly few of few points: how many, and their entries.
pub fn good_areas(random: &mut Random) -> (i64, Vec<Entry>) {
    let is_full = random.one_in(96);
    let count = match random.below(16) {
        _ if is_full => Notice::AREAS,
        0 => random.below(Notice::AREAS + 1),
        1..=5 => 0,
        6..=10 => 1,
        _ => 2 + random.below(2),
    };
    let mut entries = Vec::new();
    (0..count).for_each(|_| push_area(random, is_full, &mut entries));
    (count as i64, entries)
}

/// A good area of any kind; a full one has as many points as can be.
fn push_area(random: &mut Random, is_full: bool, entries: &mut Vec<Entry>) {
    let choices = [Area::POINTS, Area::LINE, Area::POLYGON, Area::SEA, Area::CIRCLE];
    let kind = random.pick(if is_full { &choices[..3] } else { &choices });
    entries.push(Entry { parts: &KIND, number: kind.into() });
    let least = match kind {
        Area::SEA => return push(random, &CODE, entries),
        Area::CIRCLE => {
            push_points(random, 1, entries);
            push(random, &RADIUS, entries);
            return push(random, &UNIT, entries);
        }
        Area::POINTS => 1,
        Area::LINE => 2,
        _ => 3,
    };
    let most = Notice::POINTS as i64;
    let points = match random.below(16) {
        _ if is_full => most,
        0 => most,
        1 => random.between(least, most),
        _ => least + random.between(0, 1),
    };
    entries.push(Entry { parts: &COUNT, number: points });
    push_points(random, points, entries);
}

fn push(random: &mut Random, parts: &'static Parts, entries: &mut Vec<Entry>) {
    entries.push(Entry { parts, number: parts.good(random) });
}

fn push_points(random: &mut Random, points: i64, entries: &mut Vec<Entry>) {
    for _ in 0..points {
        push(random, &LATITUDE, entries);
        push(random, &LONGITUDE, entries);
    }
}
