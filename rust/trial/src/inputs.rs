//! Inputs for both programs, from a seed: good ones, and ones damaged in every way that a refusal answers.

pub mod ais;
pub mod daylog;
pub mod desk;
pub mod distress;
mod field;
pub mod notice;
pub mod packet;
pub mod serial;
pub mod tide;

/// SplitMix64: one word of state, every seed good.
pub struct Random(u64);

impl Random {
    /// The numbers of one input, which depend on nothing but these three: any input can be made again by itself.
    pub fn new(seed: u64, stream: &str, index: u64) -> Random {
        let mut random = Random(seed);
        for byte in stream.bytes() {
            random.0 = random.word() ^ u64::from(byte);
        }
        random.0 = random.word() ^ index;
        random
    }

    pub fn word(&mut self) -> u64 {
        self.0 = self.0.wrapping_add(0x9E37_79B9_7F4A_7C15);
        let mut word = self.0;
        word = (word ^ word >> 30).wrapping_mul(0xBF58_476D_1CE4_E5B9);
        word = (word ^ word >> 27).wrapping_mul(0x94D0_49BB_1331_11EB);
        word ^ word >> 31
    }

    pub fn byte(&mut self) -> u8 {
        self.word() as u8
    }

    /// 0 to `end` - 1.
    pub fn below(&mut self, end: usize) -> usize {
        ((u128::from(self.word()) * end as u128) >> 64) as usize
    }

    /// `least` to `most`.
    pub fn between(&mut self, least: i64, most: i64) -> i64 {
        least + self.below((most - least) as usize + 1) as i64
    }

    pub fn one_in(&mut self, n: usize) -> bool {
        self.below(n) == 0
    }

    pub fn pick<T: Copy>(&mut self, choices: &[T]) -> T {
        choices[self.below(choices.len())]
    }

    pub fn bytes(&mut self, count: usize) -> Vec<u8> {
        (0..count).map(|_| self.byte()).collect()
    }
}

/// So many messages, which follow from a name alone. The rows of the benchmark are made so, by their names.
pub fn series<T>(name: &str, count: usize, message: fn(&mut Random) -> T) -> Vec<T> {
    let random = &mut Random::new(1, name, 0);
    (0..count).map(|_| message(random)).collect()
}

const LARGEST_ADDRESS: u32 = 2_097_151;

/// The most bytes that a damaged message grows by.
const LONGEST_TAIL: usize = 40;

/// Damages a message once: flipped bits, a cut, more bytes, another byte, or nothing left of it.
pub fn damage(random: &mut Random, message: &mut Vec<u8>) {
    match random.below(9) {
        0..=2 if !message.is_empty() => {
            for _ in 0..=random.below(3) {
                let place = random.below(8 * message.len());
                message[place / 8] ^= 0x80 >> (place % 8);
            }
        }
        3 | 4 => message.truncate(random.below(message.len() + 1)),
        5 | 6 => {
            let tail = 1 + random.below(LONGEST_TAIL);
            message.extend(random.bytes(tail));
        }
        7 if !message.is_empty() => {
            let place = random.below(message.len());
            message[place] = random.byte();
        }
        _ => {
            let size = random.below(2 * LONGEST_TAIL);
            *message = random.bytes(size);
        }
    }
}

/// How often a run of bytes is far longer than any that is good, once in so many.
const FAR: usize = 500;

/// A size that a count of 16 bits can't tell from the one that is meant, or one near the most that it holds.
fn far(random: &mut Random, meant: usize) -> usize {
    match random.below(4) {
        // As many bits but for 2^16 and more, which are 8,192 bytes.
        0 => meant + ((1 + random.below(8)) << 13),
        // As many bytes but for 2^16 and more.
        1 => meant + ((1 + random.below(2)) << 16),
        2 => (1 << 13) - 2 + random.below(4),
        _ => (1 << 16) - LONGEST_TAIL + random.below(2 * LONGEST_TAIL),
    }
}

/// A language: mostly the one that is meant, else the other, or a number that is none.
fn language(random: &mut Random, meant: u8) -> u8 {
    match random.below(24) {
        0 => meant ^ 1,
        1 => random.pick(&[2, 3, 0x80 | meant, 0xFF]),
        _ => meant,
    }
}

/// A size near `exact`: mostly enough, else any that is too short.
pub fn room(random: &mut Random, exact: usize) -> usize {
    match random.below(8) {
        0 => random.below(exact),
        1 => exact - 1,
        2 | 3 => exact + random.below(LONGEST_TAIL),
        _ => exact,
    }
}

/// A buffer of any bytes with room for about `exact`.
pub fn spare(random: &mut Random, exact: usize) -> Vec<u8> {
    let size = room(random, exact);
    random.bytes(size)
}

/// Sizes that are at least the exact ones, but for one of them at times.
pub fn rooms<const N: usize>(random: &mut Random, exact: [usize; N]) -> [usize; N] {
    let mut rooms = exact.map(|exact| if random.one_in(4) { exact + random.below(LONGEST_TAIL) } else { exact });
    let at = random.below(N);
    if exact[at] > 0 && random.one_in(3) {
        rooms[at] = room(random, exact[at]);
    }
    rooms
}

/// A row of numbers to write: mostly the one that is meant, else cut or longer.
pub fn row_to_write(random: &mut Random, mut row: Vec<u32>) -> Vec<u32> {
    match random.below(16) {
        0 => row.truncate(random.below(row.len() + 1)),
        1 => {
            row.pop();
        }
        2 | 3 => {
            let more = random.below(LONGEST_TAIL);
            row.extend((0..more).map(|_| random.word() as u32));
        }
        _ => (),
    }
    row
}
