//! The AIS messages and their slots: the calls of both programs, and how they are compared. Each message is run as a
//! family, and the slots too.

use super::{Paper, Proved};
use crate::harness::{self, Call, Family, Guarded, Options, Places, Tally};
use crate::inputs::{ais as inputs, room, spare, Random};
use crate::places::{ais as places, NONE};
use record::{answer, Ais, Area, Warning};
use std::marker::PhantomData;

/// The calls of a message, each as in C but for slices and the record, whose type or shape says which writing is meant.
pub trait Calls<M: Ais> {
    fn read(message: &[u8], row: &mut [i64]) -> u32;
    fn write(buf: &mut [u8], record: &M) -> u32;
    fn correct(message: &mut [u8], field: usize, value: u64) -> u32;
}

impl<M: bellnewt::ais::Kind> Calls<M> for Proved {
    #[inline]
    fn read(message: &[u8], row: &mut [i64]) -> u32 {
        answer(bellnewt::ais::read_row::<M>(message, row))
    }

    #[inline]
    fn write(buf: &mut [u8], record: &M) -> u32 {
        answer(bellnewt::ais::write(buf, record))
    }

    #[inline]
    fn correct(message: &mut [u8], field: usize, value: u64) -> u32 {
        answer(bellnewt::ais::correct::<M>(message, field, value))
    }
}

impl<M: paper::ais::Kind> Calls<M> for Paper {
    #[inline(never)]
    fn read(message: &[u8], row: &mut [i64]) -> u32 {
        answer(paper::ais::read_row::<M>(message, row))
    }

    #[inline(never)]
    fn write(buf: &mut [u8], record: &M) -> u32 {
        answer(paper::ais::write(buf, record))
    }

    #[inline(never)]
    fn correct(message: &mut [u8], field: usize, value: u64) -> u32 {
        answer(paper::ais::correct::<M>(message, field, value))
    }
}

/// The call that counts slots, as in C.
pub trait SlotCall {
    fn slots(message: u8, bytes: usize, slots: &mut u8) -> u32;
}

impl SlotCall for Proved {
    #[inline]
    fn slots(message: u8, bytes: usize, slots: &mut u8) -> u32 {
        answer(bellnewt::ais::count_slots(message, bytes, slots))
    }
}

impl SlotCall for Paper {
    #[inline(never)]
    fn slots(message: u8, bytes: usize, slots: &mut u8) -> u32 {
        answer(paper::ais::slots(message, bytes).map(|needed| *slots = needed))
    }
}

/// A message that both programs know.
pub trait Kind: inputs::Kind + bellnewt::ais::Kind + paper::ais::Kind {
    const NAME: &'static str;
    /// Reading, the writing of each type or shape, and correcting.
    const CALLS: &'static [Call];
}

const fn read(places: Places) -> Call {
    Call { name: "read", numbers: &[0, 1, 2, 4, 5, 6], places }
}

const fn write(name: &'static str, places: Places) -> Call {
    Call { name, numbers: &[0, 4, 6], places }
}

const fn correct(places: Places) -> Call {
    Call { name: "correct", numbers: &[0, 1, 2, 4, 5, 10], places }
}

impl Kind for Warning {
    const NAME: &'static str = "warning";
    const CALLS: &'static [Call] = &[
        read(places::WARNING),
        write("cyclone write", places::CYCLONE),
        write("gale write", places::GALE),
        write("waves write", places::WAVES),
        write("fog write", places::FOG),
        write("surge write", places::SURGE),
        correct(places::WARNING_CORRECT),
    ];
}

impl Kind for Area {
    const NAME: &'static str = "area";
    const CALLS: &'static [Call] = &[
        read(places::AREA),
        write("circle write", places::CIRCLE),
        write("rectangle write", places::RECTANGLE),
        correct(places::AREA_CORRECT),
    ];
}

/// One call and its numbers; the message or buffer and the row stand in `Lent`.
#[derive(Debug)]
pub enum Input<M> {
    Read,
    Write(M),
    Correct { field: usize, value: u64 },
}

#[derive(Clone, PartialEq, Debug)]
pub struct Lent {
    bytes: Guarded<u8>,
    row: Guarded<i64>,
}

impl<M: Kind> Input<M> {
    fn answer<C: Calls<M>>(&self, lent: &mut Lent) -> u32 {
        let bytes = lent.bytes.part();
        match self {
            Input::Read => C::read(bytes, lent.row.part()),
            Input::Write(record) => C::write(bytes, record),
            Input::Correct { field, value } => C::correct(bytes, *field, *value),
        }
    }
}

pub struct Message<M>(PhantomData<M>);

impl<M: Kind> Family for Message<M> {
    const NAME: &'static str = M::NAME;
    const CALLS: &'static [Call] = M::CALLS;
    type Input = Input<M>;
    type Lent = Lent;

    fn input(call: usize, random: &mut Random) -> (Input<M>, Lent) {
        let variants = M::LAYOUTS.len();
        let (input, bytes, row) = if call == 0 {
            (Input::Read, inputs::message::<M>(random), room(random, M::ROW))
        } else if call <= variants {
            (Input::Write(inputs::record::<M>(random, call - 1)), spare(random, M::BYTES), 0)
        } else {
            let variant = random.below(variants);
            let (field, value) = inputs::correction::<M>(random, variant);
            (Input::Correct { field, value }, inputs::message_to_correct::<M>(random, variant), 0)
        };
        (input, Lent { bytes: Guarded::new(random, bytes), row: Guarded::any(random, row) })
    }

    fn proved(input: &Input<M>, lent: &mut Lent) -> u32 {
        input.answer::<Proved>(lent)
    }

    fn paper(input: &Input<M>, lent: &mut Lent) -> u32 {
        input.answer::<Paper>(lent)
    }
}

pub struct Slots;

impl Family for Slots {
    const NAME: &'static str = "slots";
    const CALLS: &'static [Call] = &[Call { name: "slots", numbers: &[0, 1, 2], places: NONE }];
    /// A message number, and how many data bytes.
    type Input = (u8, usize);
    type Lent = Guarded<u8>;

    fn input(_: usize, random: &mut Random) -> ((u8, usize), Guarded<u8>) {
        (inputs::slots(random), Guarded::any(random, 1))
    }

    fn proved(&(message, bytes): &(u8, usize), slots: &mut Guarded<u8>) -> u32 {
        Proved::slots(message, bytes, &mut slots.part()[0])
    }

    fn paper(&(message, bytes): &(u8, usize), slots: &mut Guarded<u8>) -> u32 {
        Paper::slots(message, bytes, &mut slots.part()[0])
    }
}

/// Runs both messages and the slots.
pub fn run(options: &Options, tally: &mut Tally) {
    harness::run::<Message<Warning>>(options, tally);
    harness::run::<Message<Area>>(options, tally);
    harness::run::<Slots>(options, tally);
}
