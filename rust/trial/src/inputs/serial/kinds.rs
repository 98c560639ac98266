//! The fields of each kind of frame, and how they hang together.

use super::{Kind, Parts, LONGEST};
use crate::inputs::field::{field, Field};
use crate::inputs::{Random, LARGEST_ADDRESS};
use record::{Frame, Gljc, Txhz, Txsq, Txxx};

const ADDRESS: Field = field(24, 0, LARGEST_ADDRESS as i64, &[0]);
const HOUR: Field = field(8, 0, 23, &[0]);
const MINUTE: Field = field(8, 0, 59, &[0]);
/// A byte that is carried.
const CARRIED: Field = field(8, 0, 255, &[0]);
const FLAG: Field = field(1, 0, 1, &[0]);
const COUNT: Field = field(8, 0, 5, &[0]);

const LONGEST_EXPRESS: i64 = 188;
const LONGEST_PASSWORD: i64 = 83;
const BITS: Field = field(16, 0, LONGEST, &[LONGEST_EXPRESS, LONGEST_PASSWORD]);

impl Kind for Gljc {
    const FIELDS: &'static [Field] = &[ADDRESS, CARRIED];
}

/// Where those of TXSQ's numbers stand that hang on one another.
mod txsq {
    pub const CATEGORY: usize = 2;
    pub const MODE: usize = 3;
    pub const PASSWORD: usize = 4;
    pub const BITS: usize = 6;
    pub const ANSWER: usize = 7;
}

impl Kind for Txsq {
    const FIELDS: &'static [Field] =
        &[ADDRESS, field(4, 4, 4, &[4]), field(2, 0, 1, &[0]), FLAG, FLAG, ADDRESS, BITS, CARRIED];
    const BITS: Option<usize> = Some(txsq::BITS);

    fn most_bits(numbers: &[i64]) -> i64 {
        match (numbers[txsq::CATEGORY], numbers[txsq::PASSWORD]) {
            (_, 1) => LONGEST_PASSWORD,
            (0, _) => LONGEST_EXPRESS,
            _ => LONGEST,
        }
    }

    fn settle(random: &mut Random, numbers: &mut [i64]) {
        if numbers[txsq::PASSWORD] == 1 {
            numbers[txsq::CATEGORY] = 1;
        } else {
            numbers[txsq::ANSWER] = 0;
        }
        let most = Txsq::most_bits(numbers);
        let bits = if random.one_in(2) { random.between(0, most) } else { most.min(numbers[txsq::BITS]) };
        numbers[txsq::BITS] = if numbers[txsq::MODE] == 0 { bits - bits % 8 } else { bits };
    }

    /// The class's first four bits are not in the record.
    fn record(mut parts: Parts) -> (Txsq, Vec<u8>) {
        parts.numbers.remove(1);
        (Txsq::of_row(&parts.numbers), parts.content)
    }
}

impl Kind for Txxx {
    const FIELDS: &'static [Field] = &[ADDRESS, CARRIED, ADDRESS, HOUR, MINUTE, BITS, CARRIED];
    const BITS: Option<usize> = Some(5);
    const BEFORE_CONTENT: usize = 6;
}

/// How many numbers of TXHZ stand before the receipts.
const BEFORE_RECEIPTS: usize = 3;

impl Kind for Txhz {
    const FIELDS: &'static [Field] = &[
        ADDRESS, ADDRESS, COUNT, HOUR, MINUTE, HOUR, MINUTE, HOUR, MINUTE, HOUR, MINUTE, HOUR, MINUTE, HOUR, MINUTE,
        HOUR, MINUTE, HOUR, MINUTE, HOUR, MINUTE, HOUR, MINUTE,
    ];

    /// Receipts past the count are zero. So are some before it at times, for a count that is lowered over them.
    fn settle(random: &mut Random, numbers: &mut [i64]) {
        let count = numbers[2];
        let shown = if random.one_in(4) { random.between(0, count) } else { count };
        numbers[BEFORE_RECEIPTS + 4 * shown as usize..].fill(0);
    }

    fn record(parts: Parts) -> (Txhz, Vec<u8>) {
        let receipts = parts.numbers[BEFORE_RECEIPTS..].iter().map(|byte| *byte as u8).collect();
        (Txhz::of_row(&parts.numbers), receipts)
    }
}
