//! The serial frames.

use super::{row, Correction, Row, Scratch};
use paper::serial;
use record::{Gljc, Txhz, Txsq, Txxx};
use trial::family::serial::{Calls, Kind};
use trial::family::{Paper, Proved};
use trial::inputs::{serial as inputs, Random};

pub fn rows() -> Vec<Row> {
    let kinds = [
        of_kind::<Gljc>(["GLJC read", "GLJC write", "GLJC correct"]),
        of_kind::<Txsq>(["TXSQ read", "TXSQ write", "TXSQ correct"]),
        of_kind::<Txxx>(["TXXX read", "TXXX write", "TXXX correct"]),
        of_kind::<Txhz>(["TXHZ read", "TXHZ write", "TXHZ correct"]),
    ];
    kinds.into_iter().flatten().collect()
}

fn of_kind<F: Kind + 'static>([read_name, write_name, correct_name]: [&'static str; 3]) -> [Row; 3] {
    [
        row(read_name, inputs::good_frame::<F>, read::<F, Proved>, read::<F, Paper>),
        row(write_name, inputs::good_record::<F>, write::<F, Proved>, write::<F, Paper>),
        row(correct_name, correction::<F>, correct::<F, Proved>, correct::<F, Paper>),
    ]
}

fn correction<F: Kind>(random: &mut Random) -> Correction<Vec<u8>> {
    let correct = |frame: &mut Vec<u8>, field, value| serial::correct::<F>(frame, field, value);
    Correction::accepted(inputs::good_frame::<F>(random), || inputs::correction::<F>(random), correct)
}

fn read<F: Kind, C: Calls<F>>(frame: &mut impl AsRef<[u8]>, scratch: &mut Scratch) -> u32 {
    C::read(frame.as_ref(), &mut scratch.row)
}

fn write<F: Kind, C: Calls<F>>((record, run): &mut (F, Vec<u8>), scratch: &mut Scratch) -> u32 {
    C::write(&mut scratch.bytes, record, run)
}

fn correct<F: Kind, C: Calls<F>>(correction: &mut Correction<Vec<u8>>, _: &mut Scratch) -> u32 {
    C::correct(&mut correction.message, correction.field, correction.value)
}
