//! Message 8 with application 412/03 (003, tables 5 and 56 to 62).

use super::time::TimeField;
use super::{body, bytes_at, field, narrow, Kind, Tested, LARGEST_MMSI, REPEAT, SMALLEST, SOURCE};
use record::{Ais, Refusal, Time, Warning};

pub const MESSAGE: u8 = 8;
/// 412 in ten bits, 3 in six.
const APPLICATION: [u8; 2] = [0x67, 0x03];

/// The longitudes from 60° E to 180°, and as many latitudes.
const FARTHEST: u32 = 7_200_000;

/// The bits that the fields start at; those of the body stand between latitude and time.
const HEAD_FILL: u32 = 38;
const LONGITUDE: u32 = 60;
const LATITUDE: u32 = 83;
const TIME: u32 = 156;
const HOURS: u32 = 176;
const FILL: u32 = 182;

impl Tested for Warning {
    type Fills = [u64; 3];

    /// The fields stand in their ranges, and the fills are zero.
    #[inline]
    fn tests(&self, [head_fill, body_fill, fill]: [u64; 3], test: &mut impl FnMut(bool, Refusal)) {
        test(self.repeat <= 3, Refusal::RANGE.at(REPEAT));
        test(self.source <= LARGEST_MMSI, Refusal::RANGE.at(SOURCE));
        test(head_fill == 0, Refusal::FILL.at(HEAD_FILL));
        test(self.longitude <= FARTHEST, Refusal::RANGE.at(LONGITUDE));
        test(self.latitude <= FARTHEST, Refusal::RANGE.at(LATITUDE));
        body::tests(&self.body, body_fill, test);
        self.time.tests(TIME, test);
        test(self.hours <= 48, Refusal::RANGE.at(HOURS));
        test(fill == 0, Refusal::FILL.at(FILL));
    }
}

impl Kind for Warning {
    #[inline]
    fn handled(start: &[u8; SMALLEST]) -> bool {
        start[0] >> 2 == MESSAGE && start[5..7] == APPLICATION && (1..=5).contains(&(start[7] >> 4))
    }

    /// The last sixteen bytes hold all from the warning type on.
    #[inline]
    fn unpack(message: &[u8]) -> (Warning, [u64; 3]) {
        let source = u32::from_be_bytes(bytes_at(message, 1));
        let rest = u128::from_be_bytes(bytes_at(message, 7));
        let (high, low) = ((rest >> 64) as u64, rest as u64);
        let (body, body_fill) = body::of_bits(message[7] >> 4, field((rest >> 28) as u64, 0, 50));
        let warning = Warning {
            repeat: message[0] & 3,
            source: source >> 2,
            longitude: field(high, 37, 23) as u32,
            latitude: field(high, 14, 23) as u32,
            body,
            time: Time::of_bits(field(low, 8, Time::WIDTH)),
            hours: field(low, 2, 6) as u8,
        };
        (warning, [u64::from(source & 3), body_fill, low & 3])
    }

    #[inline]
    fn pack(&self, message: &mut [u8]) {
        let rest = u128::from(self.body.kind()) << 124
            | u128::from(self.longitude) << 101
            | u128::from(self.latitude) << 78
            | u128::from(body::bits(&self.body)) << 28
            | u128::from(self.time.bits()) << 8
            | u128::from(self.hours) << 2;
        message[0] = MESSAGE << 2 | self.repeat;
        message[1..5].copy_from_slice(&(self.source << 2).to_be_bytes());
        message[5..7].copy_from_slice(&APPLICATION);
        message[7..].copy_from_slice(&rest.to_be_bytes());
    }

    #[inline]
    fn fill_row(&self, row: &mut [i64]) -> Result<(), Refusal> {
        *row.first_chunk_mut().ok_or(Refusal::ROOM)? = self.row();
        Ok(())
    }

    fn change(&mut self, field: usize, value: u64) -> Result<(), Refusal> {
        match field {
            Warning::REPEAT => self.repeat = narrow(value, 2, REPEAT)? as u8,
            Warning::SOURCE => self.source = narrow(value, 30, SOURCE)? as u32,
            Warning::LONGITUDE => self.longitude = narrow(value, 23, LONGITUDE)? as u32,
            Warning::LATITUDE => self.latitude = narrow(value, 23, LATITUDE)? as u32,
            Warning::TIME => self.time = Time::of_bits(narrow(value, Time::WIDTH, TIME)?),
            Warning::HOURS => self.hours = narrow(value, 6, HOURS)? as u8,
            _ => body::change(&mut self.body, field, value)?,
        }
        Ok(())
    }
}
