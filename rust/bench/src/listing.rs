//! How the time and the memory of listing a log grow with it: the proved program's, beside the independent program's and
//! those of `wc -c`, which only counts the bytes.

use std::fs::{self, File};
use std::io::{self, BufRead, BufReader, Read, Write};
use std::path::Path;
use std::process::{self, Command, Stdio};
use std::{env, thread};
use trial::inputs::{daylog, Random};
use trial::listing::program;

/// How many records the logs have, and how often each program lists them.
const LOGS: [(usize, usize); 3] = [(1_000, 100), (100_000, 20), (1_000_000, 10)];
/// The word by which the benchmark runs itself as the independent program.
pub const PAPER: &str = "list";
/// What `rust/native listing` makes.
const NATIVE: &str = concat!(env!("CARGO_MANIFEST_DIR"), "/../../target/native/listing");
/// Whether programs that rt linked need an emulator here.
const EMULATED: bool = cfg!(not(target_arch = "x86_64"));

/// Lists the log on standard input by the independent program.
pub fn list_by_paper() {
    let mut log = Vec::new();
    io::stdin().read_to_end(&mut log).expect("a log");
    io::stdout().write_all(paper::daylog::listing(&log).as_bytes()).expect("room for the listing");
}

/// Prints a line for each log.
pub fn table() {
    let room = env::temp_dir().join(format!("bellnewt-listing-{}", process::id()));
    fs::create_dir(&room).expect("room for logs");
    println!("{:>10}{:>12}{:>44}{:>24}", "", "", "processor seconds a listing", "resident KiB");
    print!("{:>10}{:>12}", "records", "bytes");
    ["proved", "emulated", "paper", "wc -c", "proved", "emulated"].iter().for_each(|head| print!("{head:>11}"));
    println!();
    let printed = LOGS.iter().try_for_each(|(records, runs)| print_line(&room, *records, *runs));
    fs::remove_dir_all(&room).expect("the logs are ours");
    printed.expect("logs that are listed");
    println!(
        "Records of every kind and of none, good and damaged; all listings are the same. Seconds: user and system, the"
    );
    println!("mean of some runs from a file to a file; wc -c gets the log by a pipe from cat, since it does not read a file.");
    println!("Resident: the greatest.");
    if EMULATED {
        println!("proved: compiled for this machine, as rust/native says; emulated: as ./listing runs it.");
    }
}

fn print_line(room: &Path, records: usize, runs: usize) -> io::Result<()> {
    let log = room.join("log");
    fs::write(&log, daylog::good_log(&mut Random::new(1, "listing", records as u64), records))?;
    let mut paper = Command::new(env::current_exe()?);
    paper.arg(PAPER);
    let mut count = Command::new("sh");
    count.args(["-c", "cat | wc -c"]);
    let [proved_text, emulated_text, paper_text, size] =
        ["proved", "emulated", "paper", "size"].map(|name| room.join(name));

    let times = [
        Some(time(&mut proved(), &log, &proved_text, runs)?),
        emulated().map(|mut program| time(&mut program, &log, &emulated_text, runs)).transpose()?,
        Some(time(&mut paper, &log, &paper_text, runs)?),
        Some(time(&mut count, &log, &size, runs)?),
    ];
    let due = fs::read(paper_text)?;
    if fs::read(proved_text)? != due || EMULATED && fs::read(emulated_text)? != due {
        return Err(io::Error::other(format!("the listings of {records} records differ")));
    }
    let resident = [
        Some(resident(proved(), &log, records)?),
        emulated().map(|program| resident(program, &log, records)).transpose()?,
    ];
    print!("{records:>10}{:>12}", fs::metadata(&log)?.len());
    times.iter().for_each(|time| print!("{:>11}", time.map_or("-".to_string(), |time| format!("{time:.4}"))));
    resident.iter().for_each(|size| print!("{:>11}", size.map_or("-".to_string(), |size| size.to_string())));
    println!();
    Ok(())
}

/// The proved program, compiled for this machine.
fn proved() -> Command {
    if EMULATED {
        Command::new(NATIVE)
    } else {
        program()
    }
}

/// The proved program as `./listing` runs it, where that is another way.
fn emulated() -> Option<Command> {
    EMULATED.then(program)
}

/// The seconds of the processor that a program takes from a log to its text. The machine may be shared, so the time on
/// the wall says less.
fn time(program: &mut Command, log: &Path, text: &Path, runs: usize) -> io::Result<f64> {
    let before = spent()?;
    for _ in 0..runs {
        let status = program.stdin(File::open(log)?).stdout(File::create(text)?).status()?;
        if !status.success() {
            return Err(io::Error::other(format!("{program:?}: {status}")));
        }
    }
    Ok((spent()? - before) / runs as f64)
}

/// The seconds of the processor, user and system, that programs took which were started here and have ended.
fn spent() -> io::Result<f64> {
    let stat = fs::read_to_string("/proc/self/stat")?;
    // The second word is a name in brackets; the 16th and 17th are hundredths of a second.
    let words = stat.rsplit(')').next().unwrap_or("").split_whitespace();
    let hundredths = words.skip(13).take(2).filter_map(|word| word.parse::<f64>().ok());
    Ok(hundredths.sum::<f64>() / 100.0)
}

/// The greatest resident memory, in KiB, of a program that lists a log of so many records. The log comes by a pipe that
/// stays open, so that when the last line is there the program still waits, and can be looked at.
fn resident(mut program: Command, log: &Path, records: usize) -> io::Result<u64> {
    let mut child = program.stdin(Stdio::piped()).stdout(Stdio::piped()).spawn()?;
    let (mut input, output) = (child.stdin.take().expect("a pipe"), child.stdout.take().expect("a pipe"));
    let mut log = File::open(log)?;
    let feeder = thread::spawn(move || io::copy(&mut log, &mut input).map(|_| input));
    // The heading is a line too.
    BufReader::new(output).lines().take(1 + records).try_for_each(|line| line.map(drop))?;
    let input = feeder.join().expect("the feeder ends")?;
    let status = fs::read_to_string(format!("/proc/{}/status", child.id()))?;
    drop(input);
    child.wait()?;
    let size = status.lines().find_map(|line| line.strip_prefix("VmHWM:")?.split_whitespace().next()?.parse().ok());
    size.ok_or_else(|| io::Error::other("no VmHWM in /proc"))
}
