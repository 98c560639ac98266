//! Prints what a message costs by the proved code and by the independent program, and what listing a long log does;
//! `bench listing` prints the latter alone.
//!
//! `bench count ROW proved|paper ROUNDS` works through one row and prints nothing: the benchmark runs itself so, under
//! valgrind, once for some rounds and once for more. The difference is what the rounds cost, whatever came before.

#![forbid(unsafe_code)]

mod listing;
mod rows;

use record::Place;
use rows::{desk, rows, Rounds, MESSAGES};
use std::collections::HashMap;
use std::io;
use std::process::Command;
use std::time::Instant;
use trial::gpsd;

const TIMED_ROUNDS: usize = 200;
/// How often gpsd's decoder is run on all messages of a row.
const DECODER_RUNS: usize = 5;
const COUNTED_ROUNDS: [usize; 2] = [1, 3];

fn main() {
    let words: Vec<String> = std::env::args().skip(1).collect();
    match words.iter().map(String::as_str).collect::<Vec<_>>()[..] {
        [] => {
            table();
            listing::table();
        }
        ["listing"] => listing::table(),
        [listing::PAPER] => listing::list_by_paper(),
        ["count", row, side, rounds] => count(row, side, rounds.parse().expect("rounds")),
        _ => panic!("bench, bench listing, or bench count ROW proved|paper ROUNDS"),
    }
}

fn count(name: &str, side: &str, rounds: usize) {
    let row = rows().into_iter().find(|row| row.name == name).expect("a row of the table");
    let made = (row.rounds)();
    let mut round = if side == "proved" { made.proved } else { made.paper };
    (0..rounds).for_each(|_| round());
}

fn table() {
    println!("{:<20}{:>30}{:>30}", "", "ns a message", "instructions a message");
    let heads = ["proved", "paper", "ratio"];
    print!("{:<20}", "call");
    heads.iter().chain(&heads).for_each(|head| print!("{head:>10}"));
    println!();
    let mut pairs = HashMap::new();
    for row in rows() {
        let pair = times((row.rounds)(), row.messages);
        print!("{:<20}", row.name);
        print_pair(Some(pair));
        print_pair(instructions(row.name, row.messages));
        println!();
        pairs.insert(row.name, pair);
    }
    println!(
        "{MESSAGES} good messages a row, fewer long ones; ns: best of {TIMED_ROUNDS} rounds, the two programs in turn."
    );
    println!("instructions: by valgrind; '-' where it is missing.");
    println!("The library's calls can't be inlined, so the independent program's are not either (inline(never)).");
    if cfg!(not(target_arch = "x86_64")) {
        println!("This machine is no x86-64: both were compiled for it, the library as rust/native says.");
    }
    println!("desk: a notice of {} packets of 206 bytes; an asking joins all of it.", Place::PACKETS);
    let [proved, paper] = [0, 1].map(|side| packets_a_second(pairs[desk::ACCEPT][side], pairs[desk::ASK][side]));
    println!("desk, packets a second through accept and ask: proved {proved:.0}, paper {paper:.0}");
    decoder_rows(&pairs);
}

/// From the nanoseconds of accepting a packet and of asking for the notice when all have come.
fn packets_a_second(accept: f64, ask: f64) -> f64 {
    let packets = Place::PACKETS as f64;
    1e9 * packets / (packets * accept + ask)
}

/// The rows that read AIS messages, beside gpsd's decoder where it is installed.
fn decoder_rows(pairs: &HashMap<&str, [f64; 2]>) {
    let rows = [(gpsd::WARNING_ROW, gpsd::warnings()), (gpsd::AREA_ROW, gpsd::areas())];
    let times: io::Result<Vec<f64>> = rows.iter().map(|(_, messages)| decoder_time(messages)).collect();
    match times {
        Ok(times) => {
            println!("{:<20}{:>10}{:>10}{:>10}", "ns a message", "proved", "gpsd", "ratio");
            for ((name, _), gpsd) in rows.iter().zip(times) {
                let [proved, _] = pairs[name];
                println!("{name:<20}{proved:>10.1}{gpsd:>10.1}{:>10.4}", proved / gpsd);
            }
            println!("gpsd: gpsdecode -j on the same messages, best of {DECODER_RUNS} runs without its start; it also");
            println!("takes them out of AIVDM sentences, and prints them.");
        }
        Err(error) if error.kind() == io::ErrorKind::NotFound => println!("gpsd: {}.", gpsd::MISSING),
        Err(error) => println!("gpsd: {error}."),
    }
}

/// Nanoseconds a message by gpsd's decoder: those of a run, less those of a run on nothing.
fn decoder_time(messages: &[Vec<u8>]) -> io::Result<f64> {
    let sentences = gpsd::sentences(messages);
    let mut best = [f64::INFINITY; 2];
    for _ in 0..DECODER_RUNS {
        for (best, sentences) in best.iter_mut().zip(["", &sentences]) {
            let start = Instant::now();
            gpsd::decode(sentences)?;
            *best = best.min(start.elapsed().as_nanos() as f64);
        }
    }
    Ok((best[1] - best[0]) / messages.len() as f64)
}

fn print_pair(pair: Option<[f64; 2]>) {
    match pair {
        Some([proved, paper]) => print!("{proved:>10.1}{paper:>10.1}{:>10.2}", proved / paper),
        None => print!("{:>10}{:>10}{:>10}", "-", "-", "-"),
    }
}

/// Nanoseconds a message, proved and paper.
fn times(mut rounds: Rounds, messages: usize) -> [f64; 2] {
    let mut best = [f64::INFINITY; 2];
    for _ in 0..TIMED_ROUNDS {
        for (best, round) in best.iter_mut().zip([&mut rounds.proved, &mut rounds.paper]) {
            let start = Instant::now();
            round();
            *best = best.min(start.elapsed().as_nanos() as f64 / messages as f64);
        }
    }
    best
}

/// Instructions a message, proved and paper, where valgrind is there to count them.
fn instructions(row: &str, messages: usize) -> Option<[f64; 2]> {
    Some([instructions_of(row, "proved", messages)?, instructions_of(row, "paper", messages)?])
}

fn instructions_of(row: &str, side: &str, messages: usize) -> Option<f64> {
    let [few, many] = COUNTED_ROUNDS;
    let extra = collected(row, side, many)? - collected(row, side, few)?;
    Some(extra / ((many - few) * messages) as f64)
}

/// All instructions of a run, as cachegrind says in a line `I refs: 1,234`.
fn collected(row: &str, side: &str, rounds: usize) -> Option<f64> {
    let output = Command::new("valgrind")
        .args(["--tool=cachegrind", "--cache-sim=no", "--cachegrind-out-file=/dev/null"])
        .arg(std::env::current_exe().ok()?)
        .args(["count", row, side, &rounds.to_string()])
        .output()
        .ok()?;
    let said = String::from_utf8_lossy(&output.stderr);
    said.lines().find_map(|line| line.split_once(" refs:")?.1.replace(',', "").trim().parse().ok())
}
