//! Joins packets at the desk. They come in any order, and one comes twice.
//!
//!     cargo run --offline --example join_packets

use bellnewt::desk::{Asked, Desk};
use bellnewt::packet::{self, ENGLISH};
use bellnewt::Refusal;

const NUMBER: u8 = 7;

fn main() -> Result<(), Refusal> {
    // Any bytes will do here: the desk joins packets, and does not look into the notice.
    let content: Vec<u8> = (0..500).map(|at| at as u8).collect();
    let packets = packet::packets(&content, ENGLISH, NUMBER)?;
    println!("{} bytes in {} packets", content.len(), packets.len());

    let mut desk = Desk::new();
    for own in [2, 0, 0, 1] {
        println!("packet {own}: {:?}", desk.accept(&packets[own])?);
        match desk.ask(NUMBER)? {
            Asked::Missing(missing) => println!("  missing: {missing:?}"),
            Asked::Complete { notice, .. } => {
                println!("  complete, {}", if notice == content { "as it was sent" } else { "but another" });
            }
        }
    }

    // The notice has left the desk, so it is not known there any more.
    if let Err(refusal) = desk.ask(NUMBER) {
        println!("asked again: {refusal}");
    }
    Ok(())
}
