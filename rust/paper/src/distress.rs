//! The distress report and its sentence (01, "Distress report"; 001, annex A).

use super::{narrow, signed, within, xor, Tested, LARGEST_ADDRESS};
use record::{Refusal, Report};

const CODE: [u8; 2] = [0xBD, 0xC1];

/// The bits that the fields start at.
const MMSI: u32 = 16;
const LONGITUDE: u32 = 48;
const LATITUDE: u32 = 73;
const DAY: u32 = 97;
const HOUR: u32 = 102;
const MINUTE: u32 = 107;
const SPEED: u32 = 113;
const COURSE: u32 = 120;
const KIND: u32 = 129;
const FILL: u32 = 133;

impl Tested for Report {
    type Fills = u64;

    /// The fields stand in their ranges, and the fill is zero.
    #[inline]
    fn tests(&self, fill: u64, test: &mut impl FnMut(bool, Refusal)) {
        let mut range = |good: bool, at: u32| test(good, Refusal::RANGE.at(at));
        range(self.mmsi <= 999_999_999, MMSI);
        range(within(self.longitude, 10_800_000, 10_860_000), LONGITUDE);
        range(within(self.latitude, 5_400_000, 5_460_000), LATITUDE);
        range(self.day <= 31, DAY);
        range(self.hour <= 24, HOUR);
        range(self.minute <= 60, MINUTE);
        range(self.speed <= 126, SPEED);
        range(self.course <= 360, COURSE);
        range(self.kind <= 9, KIND);
        test(fill == 0, Refusal::FILL.at(FILL));
    }
}

/// The fields, and the three bits of fill. The last eight bytes hold all from the latitude on, after one bit of the
/// longitude.
fn unpack(m: &[u8; Report::BYTES]) -> (Report, u64) {
    let rest = u64::from_be_bytes([m[9], m[10], m[11], m[12], m[13], m[14], m[15], m[16]]);
    let field = |below: u32, width: u32| rest >> below & ((1 << width) - 1);
    let report = Report {
        mmsi: u32::from_be_bytes([m[2], m[3], m[4], m[5]]),
        longitude: i32::from_be_bytes([m[6], m[7], m[8], m[9]]) >> 7,
        latitude: signed(field(39, 24), 24),
        day: field(34, 5) as u8,
        hour: field(29, 5) as u8,
        minute: field(23, 6) as u8,
        speed: field(16, 7) as u8,
        course: field(7, 9) as u16,
        kind: field(3, 4) as u8,
    };
    (report, field(0, 3))
}

/// The bytes of a good report.
fn pack(r: &Report) -> [u8; Report::BYTES] {
    let longitude = (r.longitude << 7) as u32;
    let rest = u64::from(longitude) << 56
        | (r.latitude as u64 & 0xFF_FFFF) << 39
        | u64::from(r.day) << 34
        | u64::from(r.hour) << 29
        | u64::from(r.minute) << 23
        | u64::from(r.speed) << 16
        | u64::from(r.course) << 7
        | u64::from(r.kind) << 3;
    let mut m = [0; Report::BYTES];
    m[..2].copy_from_slice(&CODE);
    m[2..6].copy_from_slice(&r.mmsi.to_be_bytes());
    m[6..10].copy_from_slice(&longitude.to_be_bytes());
    m[9..].copy_from_slice(&rest.to_be_bytes());
    m
}

#[inline]
pub fn read(message: &[u8]) -> Result<Report, Refusal> {
    let head = message.first_chunk().ok_or(Refusal::SIZE)?;
    if head[..2] != CODE {
        return Err(Refusal::KIND);
    }
    if message.len() != Report::BYTES {
        return Err(Refusal::SIZE);
    }
    let (report, fill) = unpack(head);
    if !report.good(fill) {
        return Err(fault(head));
    }
    Ok(report)
}

/// What refuses a message with a bad field or fill.
#[cold]
fn fault(message: &[u8; Report::BYTES]) -> Refusal {
    let (report, fill) = unpack(message);
    report.fault(fill)
}

pub fn read_row(message: &[u8], row: &mut [i64]) -> Result<(), Refusal> {
    let report = read(message)?;
    *row.first_chunk_mut().ok_or(Refusal::ROOM)? = report.row();
    Ok(())
}

/// The 17 bytes of a report.
#[inline]
pub fn message(report: &Report) -> Result<[u8; Report::BYTES], Refusal> {
    report.judge(0)?;
    Ok(pack(report))
}

#[inline]
pub fn write(buf: &mut [u8], report: &Report) -> Result<(), Refusal> {
    let message = message(report)?;
    *buf.first_chunk_mut().ok_or(Refusal::ROOM)? = message;
    Ok(())
}

pub fn correct(message: &mut [u8], field: usize, value: u64) -> Result<(), Refusal> {
    let mut report = read(message)?;
    match field {
        Report::MMSI => report.mmsi = narrow(value, 32, MMSI)? as u32,
        Report::LONGITUDE => report.longitude = signed(narrow(value, 25, LONGITUDE)?, 25),
        Report::LATITUDE => report.latitude = signed(narrow(value, 24, LATITUDE)?, 24),
        Report::DAY => report.day = narrow(value, 5, DAY)? as u8,
        Report::HOUR => report.hour = narrow(value, 5, HOUR)? as u8,
        Report::MINUTE => report.minute = narrow(value, 6, MINUTE)? as u8,
        Report::SPEED => report.speed = narrow(value, 7, SPEED)? as u8,
        Report::COURSE => report.course = narrow(value, 9, COURSE)? as u16,
        Report::KIND => report.kind = narrow(value, 4, KIND)? as u8,
        _ => return Err(Refusal::FIELD),
    }
    write(message, &report)
}

const START: &[u8; 7] = b"$CCTXA,";
const MIDDLE: &[u8; 7] = b",2,2,A4";
/// A sentence without its address: start, middle, 34 digits, ending.
const FRAME: usize = START.len() + MIDDLE.len() + 2 * Report::BYTES + 5;

pub fn read_sentence(sentence: &[u8]) -> Result<(u32, Report), Refusal> {
    if !(FRAME + 1..=FRAME + 7).contains(&sentence.len()) {
        return Err(Refusal::SIZE);
    }
    if !sentence.starts_with(START) {
        return Err(Refusal::KIND);
    }
    let (sealed, end) = sentence.split_at(sentence.len() - 5);
    if *end != ending(&sealed[1..]) {
        return Err(Refusal::CHECKSUM);
    }
    let (address, content) = sealed[START.len()..].split_at(sentence.len() - FRAME);
    let address = read_address(address).ok_or(Refusal::RANGE)?;
    let digits = content.strip_prefix(MIDDLE).and_then(|digits| digits.first_chunk()).ok_or(Refusal::RANGE)?;
    let message = read_digits(digits).ok_or(Refusal::RANGE)?;
    Ok((address, read(&message)?))
}

#[inline]
pub fn read_sentence_row(sentence: &[u8], row: &mut [i64]) -> Result<(), Refusal> {
    let (address, report) = read_sentence(sentence)?;
    let row: &mut [i64; 1 + Report::ROW] = row.first_chunk_mut().ok_or(Refusal::ROOM)?;
    row[0] = address.into();
    row[1..].copy_from_slice(&report.row());
    Ok(())
}

pub fn write_sentence(buf: &mut [u8], address: u32, report: &Report) -> Result<usize, Refusal> {
    if !(1..=LARGEST_ADDRESS).contains(&address) {
        return Err(Refusal::RANGE);
    }
    let message = message(report)?;
    let address_end = START.len() + address.ilog10() as usize + 1;
    let size = FRAME - START.len() + address_end;
    let sentence = buf.get_mut(..size).ok_or(Refusal::ROOM)?;

    sentence[..START.len()].copy_from_slice(START);
    let mut left = address;
    for digit in sentence[START.len()..address_end].iter_mut().rev() {
        *digit = b'0' + (left % 10) as u8;
        left /= 10;
    }
    let (sealed, end) = sentence.split_at_mut(size - 5);
    let content = &mut sealed[address_end..];
    content[..MIDDLE.len()].copy_from_slice(MIDDLE);
    write_digits(&mut content[MIDDLE.len()..], &message);
    end.copy_from_slice(&ending(&sealed[1..]));
    Ok(size)
}

/// `*`, the XOR of the bytes in two upper-case hex digits, CR LF.
fn ending(bytes: &[u8]) -> [u8; 5] {
    const DIGITS: &[u8; 16] = b"0123456789ABCDEF";
    let sum = xor(bytes);
    let [high, low] = [sum >> 4, sum & 15].map(|digit| DIGITS[usize::from(digit)]);
    [b'*', high, low, b'\r', b'\n']
}

/// An address of 1 to 7 digits with no leading zero.
fn read_address(digits: &[u8]) -> Option<u32> {
    if digits[0] == b'0' {
        return None;
    }
    let mut address = 0;
    for digit in digits {
        if !digit.is_ascii_digit() {
            return None;
        }
        address = 10 * address + u32::from(digit - b'0');
    }
    (address <= LARGEST_ADDRESS).then_some(address)
}

const LOWER: &[u8; 16] = b"0123456789abcdef";

/// What a byte is worth as a lower-case hex digit; above 15 for any other byte.
const WORTH: [u8; 256] = {
    let mut worth = [0xFF; 256];
    let mut digit = 0;
    while digit < LOWER.len() {
        worth[LOWER[digit] as usize] = digit as u8;
        digit += 1;
    }
    worth
};

fn read_digits(digits: &[u8; 2 * Report::BYTES]) -> Option<[u8; Report::BYTES]> {
    let mut message = [0; Report::BYTES];
    let mut seen = 0;
    for (byte, pair) in message.iter_mut().zip(digits.chunks_exact(2)) {
        let [high, low] = [pair[0], pair[1]].map(|digit| WORTH[usize::from(digit)]);
        seen |= high | low;
        *byte = high << 4 | low;
    }
    (seen <= 15).then_some(message)
}

fn write_digits(digits: &mut [u8], message: &[u8; Report::BYTES]) {
    for (pair, byte) in digits.chunks_exact_mut(2).zip(message) {
        pair[0] = LOWER[usize::from(byte >> 4)];
        pair[1] = LOWER[usize::from(byte & 15)];
    }
}
