//! Reads a notice and prints what it says.
//!
//!     cargo run --offline --example read_notice [FILE]
//!
//! FILE has the bytes of an English notice. Without it, a sample is read.

use bellnewt::notice::{self, Angle, Area, Expiry, Point};
use bellnewt::packet::ENGLISH;
use std::error::Error;
use std::{env, fs};

/// An area of each kind, and the text KEEP CLEAR.
const SAMPLE: [u8; 62] = [
    0x59, 0x00, 0xF6, 0x61, 0x2D, 0x1B, 0x33, 0xCA, 0x04, 0x48, 0x8F, 0x1E, 0xC8, 0xF4, 0xF0, 0x04, 0x43, 0xC0, 0x00,
    0x3D, 0x00, 0x00, 0x7C, 0x00, 0x07, 0xB0, 0x00, 0x38, 0x00, 0x00, 0xED, 0x3C, 0xC6, 0x0C, 0xD0, 0xC9, 0xAD, 0x32,
    0x76, 0x7A, 0x59, 0x36, 0x40, 0x0E, 0xDD, 0xE3, 0x26, 0xA0, 0x29, 0xDC, 0x00, 0x09, 0x68, 0xA8, 0xAA, 0x04, 0x08,
    0x69, 0x88, 0xA8, 0x2A, 0x40,
];

fn main() -> Result<(), Box<dyn Error>> {
    let bytes = match env::args().nth(1) {
        Some(file) => fs::read(file)?,
        None => SAMPLE.to_vec(),
    };
    let notice = notice::read(&bytes, ENGLISH)?;

    let head = notice.head;
    println!("notice {} of the year {:02}", head.serial, head.year);
    println!("source {}, station {}, type {}, subtype {}", head.source, head.station, head.kind, head.subtype);
    match Expiry::of_number(head.expiry) {
        Some(Expiry { next_year, month, day, hour, minute }) => {
            let year = if next_year { " of the next year" } else { "" };
            println!("ends on day {day} of month {month}{year} at {hour:02}:{minute:02}");
        }
        None => println!("no known end"),
    }
    notice.areas.iter().for_each(print_area);
    println!("{}", String::from_utf8_lossy(&notice.text));
    Ok(())
}

fn print_area(area: &Area) {
    let points = area.points().iter().map(place).collect::<Vec<_>>().join(" to ");
    match area {
        Area::Sea { code } => println!("sea area {code}"),
        Area::Points(_) => println!("points {points}"),
        Area::Line(_) => println!("line {points}"),
        Area::Polygon(_) => println!("polygon {points}"),
        Area::Circle { radius, unit, .. } => {
            let unit = ["metres", "kilometres", "nautical miles"].get(usize::from(*unit)).unwrap_or(&"of no unit");
            println!("circle {points}, {radius} {unit}");
        }
    }
}

/// A point as a chart has it.
fn place(point: &Point) -> String {
    let text = |angle: Angle, [positive, negative]: [char; 2]| {
        let side = if angle.negative { negative } else { positive };
        format!("{}°{:02}.{:02}'{side}", angle.degrees, angle.minutes, angle.hundredths)
    };
    format!("{} {}", text(point.latitude_parts(), ['N', 'S']), text(point.longitude_parts(), ['E', 'W']))
}
