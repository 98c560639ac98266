//! Message 6 with application 412/11.

use super::Kind;
use crate::call::{Calls, Correct, Read};
use record::{Area, Shape};

extern "C" {
    fn bellnewt_area_read(s: *const u8, len: usize, row: *mut i64, row_len: usize) -> u32;
    fn bellnewt_circle_write(
        buf: *mut u8,
        len: usize,
        repeat: u8,
        source: u32,
        sequence: u8,
        destination: u32,
        resent: u8,
        kind: u8,
        longitude: i32,
        latitude: i32,
        radius: u8,
        month: u8,
        day: u8,
        hour: u8,
        minute: u8,
        second_month: u8,
        second_day: u8,
        second_hour: u8,
        advice: u8,
    ) -> u32;
    fn bellnewt_rectangle_write(
        buf: *mut u8,
        len: usize,
        repeat: u8,
        source: u32,
        sequence: u8,
        destination: u32,
        resent: u8,
        kind: u8,
        longitude: i32,
        latitude: i32,
        second_longitude: i32,
        second_latitude: i32,
        month: u8,
        day: u8,
        hour: u8,
        minute: u8,
        second_month: u8,
        second_day: u8,
        second_hour: u8,
        advice: u8,
    ) -> u32;
    fn bellnewt_area_correct(s: *mut u8, len: usize, field: usize, value: u64) -> u32;
}

// SAFETY: both calls are the library's.
unsafe impl Calls for Area {
    const READ: Read = bellnewt_area_read;
    const CORRECT: Correct = bellnewt_area_correct;
}

/// Calls one of the writings: the numbers before the shape's, the shape's, and those after them.
macro_rules! put {
    ($write:ident, $area:ident, $buf:ident, $($number:ident),*) => {
        // SAFETY: see `call`.
        unsafe {
            $write(
                $buf.as_mut_ptr(),
                $buf.len(),
                $area.repeat,
                $area.source,
                $area.sequence,
                $area.destination,
                $area.resent,
                $area.kind,
                $area.longitude,
                $area.latitude,
                $($number,)*
                $area.time.month,
                $area.time.day,
                $area.time.hour,
                $area.time.minute,
                $area.second_time.month,
                $area.second_time.day,
                $area.second_time.hour,
                $area.advice,
            )
        }
    };
}

impl Kind for Area {
    #[inline]
    fn put(&self, buf: &mut [u8]) -> u32 {
        match self.shape {
            Shape::Circle { radius } => put!(bellnewt_circle_write, self, buf, radius),
            Shape::Rectangle { longitude, latitude } => {
                put!(bellnewt_rectangle_write, self, buf, longitude, latitude)
            }
        }
    }
}
