//! Writes samples/day.log, and samples/day.txt as the independent program lists it.

use std::{fs, io};
use trial::sample;

fn main() -> io::Result<()> {
    let log = sample::day_log();
    fs::write(sample::LOG, &log)?;
    fs::write(sample::LISTING, paper::daylog::listing(&log))
}
