//! Message 8 with application 412/03.

use super::Kind;
use crate::call::{Calls, Correct, Read};
use record::{Body, Warning};

extern "C" {
    fn bellnewt_warning_read(s: *const u8, len: usize, row: *mut i64, row_len: usize) -> u32;
    fn bellnewt_cyclone_write(
        buf: *mut u8,
        len: usize,
        repeat: u8,
        source: u32,
        longitude: u32,
        latitude: u32,
        kind: u8,
        gale_radius: u16,
        storm_radius: u16,
        speed: u8,
        direction: u16,
        force: u8,
        pressure: u16,
        month: u8,
        day: u8,
        hour: u8,
        minute: u8,
        hours: u8,
    ) -> u32;
    fn bellnewt_gale_write(
        buf: *mut u8,
        len: usize,
        repeat: u8,
        source: u32,
        longitude: u32,
        latitude: u32,
        radius: u8,
        least: u8,
        greatest: u8,
        direction: u8,
        month: u8,
        day: u8,
        hour: u8,
        minute: u8,
        hours: u8,
    ) -> u32;
    fn bellnewt_waves_write(
        buf: *mut u8,
        len: usize,
        repeat: u8,
        source: u32,
        longitude: u32,
        latitude: u32,
        radius: u8,
        height: u8,
        period: u16,
        month: u8,
        day: u8,
        hour: u8,
        minute: u8,
        hours: u8,
    ) -> u32;
    fn bellnewt_fog_write(
        buf: *mut u8,
        len: usize,
        repeat: u8,
        source: u32,
        longitude: u32,
        latitude: u32,
        radius: u16,
        visibility: u8,
        month: u8,
        day: u8,
        hour: u8,
        minute: u8,
        hours: u8,
    ) -> u32;
    fn bellnewt_surge_write(
        buf: *mut u8,
        len: usize,
        repeat: u8,
        source: u32,
        longitude: u32,
        latitude: u32,
        radius: u16,
        rise: u16,
        tide: u16,
        period: u16,
        month: u8,
        day: u8,
        hour: u8,
        minute: u8,
        hours: u8,
    ) -> u32;
    fn bellnewt_warning_correct(s: *mut u8, len: usize, field: usize, value: u64) -> u32;
}

// SAFETY: both calls are the library's.
unsafe impl Calls for Warning {
    const READ: Read = bellnewt_warning_read;
    const CORRECT: Correct = bellnewt_warning_correct;
}

/// Calls one of the writings: the numbers before the body's, the body's, and those after them.
macro_rules! put {
    ($write:ident, $warning:ident, $buf:ident, $($number:ident),*) => {
        // SAFETY: see `call`.
        unsafe {
            $write(
                $buf.as_mut_ptr(),
                $buf.len(),
                $warning.repeat,
                $warning.source,
                $warning.longitude,
                $warning.latitude,
                $($number,)*
                $warning.time.month,
                $warning.time.day,
                $warning.time.hour,
                $warning.time.minute,
                $warning.hours,
            )
        }
    };
}

impl Kind for Warning {
    #[inline]
    fn put(&self, buf: &mut [u8]) -> u32 {
        match self.body {
            Body::Cyclone { kind, gale_radius, storm_radius, speed, direction, force, pressure } => {
                put!(
                    bellnewt_cyclone_write,
                    self,
                    buf,
                    kind,
                    gale_radius,
                    storm_radius,
                    speed,
                    direction,
                    force,
                    pressure
                )
            }
            Body::Gale { radius, least, greatest, direction } => {
                put!(bellnewt_gale_write, self, buf, radius, least, greatest, direction)
            }
            Body::Waves { radius, height, period } => {
                put!(bellnewt_waves_write, self, buf, radius, height, period)
            }
            Body::Fog { radius, visibility } => put!(bellnewt_fog_write, self, buf, radius, visibility),
            Body::Surge { radius, rise, tide, period } => {
                put!(bellnewt_surge_write, self, buf, radius, rise, tide, period)
            }
        }
    }
}
