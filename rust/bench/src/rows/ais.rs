//! The AIS messages and their slots.

use super::{row, Correction, Row, Scratch};
use paper::ais;
use record::{Area, Warning};
use trial::family::ais::{Calls, Kind, SlotCall};
use trial::family::{Paper, Proved};
use trial::gpsd::{AREA_ROW, WARNING_ROW};
use trial::inputs::{ais as inputs, Random};

pub fn rows() -> Vec<Row> {
    let messages = [
        of_message::<Warning>([WARNING_ROW, "warning write", "warning correct"]),
        of_message::<Area>([AREA_ROW, "area write", "area correct"]),
    ];
    let slots = row("slots", inputs::good_slots, slots::<Proved>, slots::<Paper>);
    messages.into_iter().flatten().chain([slots]).collect()
}

fn of_message<M: Kind + 'static>([read_name, write_name, correct_name]: [&'static str; 3]) -> [Row; 3] {
    [
        row(read_name, inputs::any_good_message::<M>, read::<M, Proved>, read::<M, Paper>),
        row(write_name, inputs::good_record::<M>, write::<M, Proved>, write::<M, Paper>),
        row(correct_name, correction::<M>, correct::<M, Proved>, correct::<M, Paper>),
    ]
}

fn correction<M: Kind>(random: &mut Random) -> Correction<Vec<u8>> {
    let variant = random.below(M::LAYOUTS.len());
    let correct = |message: &mut Vec<u8>, field, value| ais::correct::<M>(message, field, value);
    let message = inputs::good_message::<M>(random, variant);
    Correction::accepted(message, || inputs::correction::<M>(random, variant), correct)
}

fn read<M: Kind, C: Calls<M>>(message: &mut impl AsRef<[u8]>, scratch: &mut Scratch) -> u32 {
    C::read(message.as_ref(), &mut scratch.row)
}

fn write<M: Kind, C: Calls<M>>(record: &mut M, scratch: &mut Scratch) -> u32 {
    C::write(&mut scratch.bytes, record)
}

fn correct<M: Kind, C: Calls<M>>(correction: &mut Correction<Vec<u8>>, _: &mut Scratch) -> u32 {
    C::correct(&mut correction.message, correction.field, correction.value)
}

fn slots<C: SlotCall>(&mut (message, bytes): &mut (u8, usize), scratch: &mut Scratch) -> u32 {
    C::slots(message, bytes, &mut scratch.bytes[0])
}
