//! The listing program, compiled from proved code, against the independent listing.

use crate::harness::{self, Call, Counts, Floor, Options, Tally};
use crate::inputs::{daylog, Random};
use crate::{places, sample};
use paper::daylog::{listing, KINDS};
use std::io::{self, Write};
use std::process::{ChildStdin, Command, Stdio};
use std::{env, fs, thread};

const PROGRAM: &str = concat!(env!("CARGO_MANIFEST_DIR"), "/../../crates/listing/out/listing");
const EMULATE: &str = concat!(env!("CARGO_MANIFEST_DIR"), "/../emulate");
const OTHER: &str = "BELLNEWT_LISTING";

/// The words of a listing's lines as a family's calls, with the numbers that a line of each can have.
const NAME: &str = "listing";
const CALLS: [Call; 6] = [
    Call { name: "serial", numbers: &[0, 1, 2, 3, 4, 5], places: places::serial::LISTED },
    Call { name: "packet", numbers: &[0, 1, 2, 4], places: places::packet::READ },
    Call { name: "distress", numbers: &[0, 1, 2, 4, 5], places: places::distress::READ },
    Call { name: "ais", numbers: &[0, 1, 2, 4, 5], places: places::ais::LISTED },
    Call { name: "unknown", numbers: &[2], places: places::NONE },
    Call { name: "broken", numbers: &[1], places: places::NONE },
];

/// A log, and what is tried by it.
type Log = (&'static str, Vec<u8>);

pub fn run(options: &Options, tally: &mut Tally) {
    let logs = logs(options);
    let compare = |index: u64, counts: &mut Counts| {
        let (name, log) = &logs[index as usize];
        compare(&format!("{name}, seed {}, log {index}", options.seed), log, counts);
    };
    // A log has one broken record at most, and a program is started for each.
    let floor = options.floor();
    let floor = Floor { times: floor.times / 10, ..floor };
    harness::run_pieces(NAME, &CALLS, logs.len() as u64, compare, floor, tally);
    samples(tally);
}

/// Logs of a few records; one cut at each place; lengths at their bounds; records without a body; and long logs: whole, cut
/// and broken.
fn logs(options: &Options) -> Vec<Log> {
    let random = |name: &str, index: u64| Random::new(options.seed, name, index);
    let few = (0..200).map(|index| ("a few records", daylog::log(&mut random("few", index))));

    let good = daylog::good_log(&mut random("cut", 0), 20);
    let cuts = (0..=good.len().min(150)).map(|size| ("a cut log", good[..size].to_vec()));

    let bounds = [0u16, 1, 2, 3, 4, 5, 16, 255, 256, 257, 258, 259, 260, 299, 300, 301, 0x0400, 0x1500, 0xFFFF];
    let record = |kind: u16, length: u16| [&length.to_le_bytes()[..], &kind.to_le_bytes(), &[0; 296]].concat();
    let lengths = KINDS.iter().flat_map(|kind| bounds.map(|length| ("a length", record(kind.number, length))));

    let records = (options.inputs / 40).clamp(1_000, 100_000) as usize;
    let mut long = [0, 1, 2].map(|index| daylog::good_log(&mut random("long", index), records));
    long[1].pop();
    long[2][10 * records..].fill(0xFF);
    // A window of these makes more text than the program's buffer has room for, at the log's end too.
    let dense = |bytes: usize| [4u8, 0, 3, 0].into_iter().cycle().take(bytes).collect();
    let dense = [400_000, 400_001, 65_536, 131_072].map(|bytes| ("a dense log", dense(bytes)));
    few.chain(cuts).chain(lengths).chain(dense).chain(long.map(|log| ("a long log", log))).collect()
}

/// Lists a log by both programs and counts its lines.
fn compare(name: &str, log: &[u8], counts: &mut Counts) {
    let due = listing(log);
    for (call, answer) in due.lines().skip(1).map(met) {
        counts.meet(call, answer, |number, bit| is_fill(call, number, bit).then_some("fill"));
    }
    let fault = match proved_listing(log) {
        Ok(found) if found == due.as_bytes() => return,
        Ok(found) => difference(&found, &due),
        Err(error) => format!("{PROGRAM}: {error}"),
    };
    let (call, _) = due.lines().last().map_or((0, 0), met);
    counts.differ(call, || format!("{name}, {} bytes: {fault}", log.len()));
}

/// Which of `CALLS` a line is of, and its code and bit as one answer.
fn met(line: &str) -> (usize, u32) {
    let words: Vec<&str> = line.split(' ').collect();
    let [_, word, code, _, bit] = words[..] else { panic!("a line of five columns") };
    let call = CALLS.iter().position(|call| call.name == word).expect("a word of the listing");
    let number = |word: &str| word.parse::<u32>().expect("a number");
    (call, number(bit) << 8 | number(code))
}

/// A line does not say which kind of frame it is of, and so not whose fill it is that starts at a bit.
fn is_fill(call: usize, number: u8, bit: u32) -> bool {
    CALLS[call].name == "serial" && number == 5 && bit > 0
}

/// The first line on which the programs differ.
fn difference(found: &[u8], due: &str) -> String {
    let found = String::from_utf8_lossy(found);
    let at = found.lines().zip(due.lines()).take_while(|(found, due)| found == due).count();
    let line = |text: &str| text.lines().nth(at).unwrap_or("nothing").to_string();
    format!("line {}: {}, due {}", at + 1, line(&found), line(due))
}

/// The program as `./listing` runs it; where `OTHER` names a program, that one.
pub fn program() -> Command {
    if let Some(other) = env::var_os(OTHER) {
        return Command::new(other);
    }
    let mut program = Command::new(EMULATE);
    program.arg(PROGRAM);
    program
}

/// What the program writes.
fn proved_listing(log: &[u8]) -> io::Result<Vec<u8>> {
    let mut program = program().stdin(Stdio::piped()).stdout(Stdio::piped()).spawn()?;
    let stdin = program.stdin.take().expect("its input is a pipe");
    let output = thread::scope(|scope| {
        scope.spawn(move || feed(stdin, log));
        program.wait_with_output()
    })?;
    if !output.status.success() {
        return Err(io::Error::other(output.status.to_string()));
    }
    Ok(output.stdout)
}

/// Gives a program its input in pieces of many sizes, so that a read may end anywhere.
fn feed(mut stdin: ChildStdin, log: &[u8]) {
    let mut random = Random::new(log.len() as u64, "pieces", 0);
    let mut rest = log;
    while !rest.is_empty() {
        let most = random.pick(&[3, 30, 300, 5_000]);
        let (piece, after) = rest.split_at((1 + random.below(most)).min(rest.len()));
        if stdin.write_all(piece).is_err() {
            // The program ends at a broken record and leaves the rest unread.
            return;
        }
        rest = after;
    }
}

/// The files in samples/ are what the sample's generator and the independent program say.
fn samples(tally: &mut Tally) {
    let log = sample::day_log();
    tally.check(fs::read(sample::LOG).is_ok_and(|found| found == log), "samples/day.log is another");
    let due = listing(&log);
    tally.check(fs::read_to_string(sample::LISTING).is_ok_and(|found| found == due), "samples/day.txt is another");
}
