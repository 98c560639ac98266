//! What a warning says by its type.

use super::{field, narrow};
use record::{Body, Refusal, Warning};

/// The bits that the numbers of each type start at, and behind them its fill, which a cyclone has not.
const CYCLONE: [u32; 7] = [106, 109, 118, 127, 133, 142, 147];
const GALE: [u32; 5] = [106, 114, 119, 124, 128];
const WAVES: [u32; 4] = [106, 114, 119, 132];
const FOG: [u32; 3] = [106, 115, 123];
const SURGE: [u32; 5] = [106, 115, 124, 134, 147];

/// The body of a warning type, whose fifty bits follow the position, and the bits of its fill.
#[inline]
pub fn of_bits(kind: u8, bits: u64) -> (Body, u64) {
    let field = |below: u32, width: u32| field(bits, below, width);
    match kind {
        1 => (cyclone(bits), 0),
        2 => {
            let gale = Body::Gale {
                radius: field(42, 8) as u8,
                least: field(37, 5) as u8,
                greatest: field(32, 5) as u8,
                direction: field(28, 4) as u8,
            };
            (gale, field(0, 28))
        }
        3 => {
            let waves =
                Body::Waves { radius: field(42, 8) as u8, height: field(37, 5) as u8, period: field(24, 13) as u16 };
            (waves, field(0, 24))
        }
        4 => (Body::Fog { radius: field(41, 9) as u16, visibility: field(33, 8) as u8 }, field(0, 33)),
        _ => {
            let surge = Body::Surge {
                radius: field(41, 9) as u16,
                rise: field(32, 9) as u16,
                tide: field(22, 10) as u16,
                period: field(9, 13) as u16,
            };
            (surge, field(0, 9))
        }
    }
}

#[inline]
fn cyclone(bits: u64) -> Body {
    Body::Cyclone {
        kind: field(bits, 47, 3) as u8,
        gale_radius: field(bits, 38, 9) as u16,
        storm_radius: field(bits, 29, 9) as u16,
        speed: field(bits, 23, 6) as u8,
        direction: field(bits, 14, 9) as u16,
        force: field(bits, 9, 5) as u8,
        pressure: field(bits, 0, 9) as u16,
    }
}

/// The fifty bits of a good body.
#[inline]
pub fn bits(body: &Body) -> u64 {
    match *body {
        Body::Cyclone { kind, gale_radius, storm_radius, speed, direction, force, pressure } => {
            u64::from(kind) << 47
                | u64::from(gale_radius) << 38
                | u64::from(storm_radius) << 29
                | u64::from(speed) << 23
                | u64::from(direction) << 14
                | u64::from(force) << 9
                | u64::from(pressure)
        }
        Body::Gale { radius, least, greatest, direction } => {
            u64::from(radius) << 42 | u64::from(least) << 37 | u64::from(greatest) << 32 | u64::from(direction) << 28
        }
        Body::Waves { radius, height, period } => {
            u64::from(radius) << 42 | u64::from(height) << 37 | u64::from(period) << 24
        }
        Body::Fog { radius, visibility } => u64::from(radius) << 41 | u64::from(visibility) << 33,
        Body::Surge { radius, rise, tide, period } => {
            u64::from(radius) << 41 | u64::from(rise) << 32 | u64::from(tide) << 22 | u64::from(period) << 9
        }
    }
}

/// Tests the numbers and the fill. What is carried need only fit its bits.
#[inline]
pub fn tests(body: &Body, fill: u64, test: &mut impl FnMut(bool, Refusal)) {
    let mut range = |good: bool, at: u32| test(good, Refusal::RANGE.at(at));
    let fill_at = match *body {
        Body::Cyclone { kind, gale_radius, storm_radius, speed, direction, force, pressure } => {
            range((1..=4).contains(&kind), CYCLONE[0]);
            range(gale_radius < 1 << 9, CYCLONE[1]);
            range(storm_radius < 1 << 9, CYCLONE[2]);
            range(speed < 1 << 6, CYCLONE[3]);
            range(direction < 1 << 9, CYCLONE[4]);
            range(force < 1 << 5, CYCLONE[5]);
            range(pressure < 1 << 9, CYCLONE[6]);
            return;
        }
        Body::Gale { radius: _, least, greatest, direction } => {
            range(least < 1 << 5, GALE[1]);
            range(greatest < 1 << 5, GALE[2]);
            range((1..=8).contains(&direction), GALE[3]);
            GALE[4]
        }
        Body::Waves { radius: _, height, period } => {
            range(height < 1 << 5, WAVES[1]);
            range(period < 1 << 13, WAVES[2]);
            WAVES[3]
        }
        Body::Fog { radius, visibility } => {
            range(radius < 1 << 9, FOG[0]);
            range(visibility <= 250, FOG[1]);
            FOG[2]
        }
        Body::Surge { radius, rise, tide, period } => {
            range(radius < 1 << 9, SURGE[0]);
            range(rise < 1 << 9, SURGE[1]);
            range(tide < 1 << 10, SURGE[2]);
            range(period < 1 << 13, SURGE[3]);
            SURGE[4]
        }
    };
    test(fill == 0, Refusal::FILL.at(fill_at));
}

pub fn change(body: &mut Body, field: usize, value: u64) -> Result<(), Refusal> {
    match (field, body) {
        (Warning::CYCLONE_KIND, Body::Cyclone { kind, .. }) => *kind = narrow(value, 3, CYCLONE[0])? as u8,
        (Warning::CYCLONE_GALE_RADIUS, Body::Cyclone { gale_radius, .. }) => {
            *gale_radius = narrow(value, 9, CYCLONE[1])? as u16
        }
        (Warning::CYCLONE_STORM_RADIUS, Body::Cyclone { storm_radius, .. }) => {
            *storm_radius = narrow(value, 9, CYCLONE[2])? as u16
        }
        (Warning::CYCLONE_SPEED, Body::Cyclone { speed, .. }) => *speed = narrow(value, 6, CYCLONE[3])? as u8,
        (Warning::CYCLONE_DIRECTION, Body::Cyclone { direction, .. }) => {
            *direction = narrow(value, 9, CYCLONE[4])? as u16
        }
        (Warning::CYCLONE_FORCE, Body::Cyclone { force, .. }) => *force = narrow(value, 5, CYCLONE[5])? as u8,
        (Warning::CYCLONE_PRESSURE, Body::Cyclone { pressure, .. }) => *pressure = narrow(value, 9, CYCLONE[6])? as u16,
        (Warning::GALE_RADIUS, Body::Gale { radius, .. }) => *radius = narrow(value, 8, GALE[0])? as u8,
        (Warning::GALE_LEAST, Body::Gale { least, .. }) => *least = narrow(value, 5, GALE[1])? as u8,
        (Warning::GALE_GREATEST, Body::Gale { greatest, .. }) => *greatest = narrow(value, 5, GALE[2])? as u8,
        (Warning::GALE_DIRECTION, Body::Gale { direction, .. }) => *direction = narrow(value, 4, GALE[3])? as u8,
        (Warning::WAVES_RADIUS, Body::Waves { radius, .. }) => *radius = narrow(value, 8, WAVES[0])? as u8,
        (Warning::WAVES_HEIGHT, Body::Waves { height, .. }) => *height = narrow(value, 5, WAVES[1])? as u8,
        (Warning::WAVES_PERIOD, Body::Waves { period, .. }) => *period = narrow(value, 13, WAVES[2])? as u16,
        (Warning::FOG_RADIUS, Body::Fog { radius, .. }) => *radius = narrow(value, 9, FOG[0])? as u16,
        (Warning::FOG_VISIBILITY, Body::Fog { visibility, .. }) => *visibility = narrow(value, 8, FOG[1])? as u8,
        (Warning::SURGE_RADIUS, Body::Surge { radius, .. }) => *radius = narrow(value, 9, SURGE[0])? as u16,
        (Warning::SURGE_RISE, Body::Surge { rise, .. }) => *rise = narrow(value, 9, SURGE[1])? as u16,
        (Warning::SURGE_TIDE, Body::Surge { tide, .. }) => *tide = narrow(value, 10, SURGE[2])? as u16,
        (Warning::SURGE_PERIOD, Body::Surge { period, .. }) => *period = narrow(value, 13, SURGE[3])? as u16,
        _ => return Err(Refusal::FIELD),
    }
    Ok(())
}
