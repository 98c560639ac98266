//! gpsd's decoder of AIS messages, where it is installed. It is given ours as AIVDM sentences, and what it says of each
//! is held against what the proved code reads. It knows neither application, so it shows their data as they are.

use crate::harness::Tally;
use crate::inputs::ais::any_good_message;
use crate::inputs::series;
use crate::numbers::ais::{AREAS, WARNINGS};
use bellnewt::ais::read;
use record::{Area, Warning};
use std::io::{self, Write};
use std::process::{Command, Stdio};
use std::thread;

pub const MISSING: &str = "gpsdecode is not installed";

/// The benchmark's rows whose messages gpsd's decoder is given too, and how many messages each has.
pub const WARNING_ROW: &str = "warning read";
pub const AREA_ROW: &str = "area read";
pub const MESSAGES: usize = 20_000;

/// The messages of the row that reads warnings.
pub fn warnings() -> Vec<Vec<u8>> {
    series(WARNING_ROW, MESSAGES, any_good_message::<Warning>)
}

/// The messages of the row that reads areas.
pub fn areas() -> Vec<Vec<u8>> {
    series(AREA_ROW, MESSAGES, any_good_message::<Area>)
}

/// The sentences of messages, a line each.
pub fn sentences(messages: &[Vec<u8>]) -> String {
    messages.iter().map(|message| sentence(message)).collect()
}

fn sentence(message: &[u8]) -> String {
    let (payload, pad) = armour(message);
    let text = format!("AIVDM,1,1,,A,{payload},{pad}");
    format!("!{text}*{:02X}\r\n", sum(&text))
}

/// Six bits a character, and how many bits of the last one are no part of the message.
fn armour(message: &[u8]) -> (String, usize) {
    let bits: Vec<u8> = message.iter().flat_map(|byte| (0..8).rev().map(move |below| byte >> below & 1)).collect();
    let character = |six: &[u8]| {
        let value = six.iter().fold(0, |value, bit| value << 1 | bit) << (6 - six.len());
        char::from(if value < 40 { 48 + value } else { 56 + value })
    };
    let payload: String = bits.chunks(6).map(character).collect();
    let pad = 6 * payload.len() - bits.len();
    (payload, pad)
}

fn sum(text: &str) -> u8 {
    text.bytes().fold(0, |sum, byte| sum ^ byte)
}

/// What `gpsdecode -j` says of sentences.
pub fn decode(sentences: &str) -> io::Result<String> {
    let mut program = Command::new("gpsdecode").arg("-j").stdin(Stdio::piped()).stdout(Stdio::piped()).spawn()?;
    let mut stdin = program.stdin.take().expect("its input is a pipe");
    let output = thread::scope(|scope| {
        // A program that ends early is told by its status.
        scope.spawn(move || stdin.write_all(sentences.as_bytes()).ok());
        program.wait_with_output()
    })?;
    if !output.status.success() {
        return Err(io::Error::other(format!("gpsdecode: {}", output.status)));
    }
    Ok(String::from_utf8_lossy(&output.stdout).into_owned())
}

/// What both decoders say of a message.
#[derive(PartialEq, Debug)]
pub struct Head {
    message: u32,
    repeat: u32,
    source: u32,
    /// Of message 6 alone.
    addressed: Option<Addressed>,
    /// 412, and 3 or 11.
    application: [u32; 2],
    /// The data behind the application: their bits in decimal, a colon, their bytes in hex.
    data: String,
}

#[derive(PartialEq, Debug)]
struct Addressed {
    sequence: u32,
    destination: u32,
    resent: bool,
}

impl Head {
    /// What the proved code reads from a good warning.
    pub fn of_warning(message: &[u8]) -> Head {
        let warning: Warning = read(message).expect("a good warning");
        Head {
            message: 8,
            repeat: warning.repeat.into(),
            source: warning.source,
            addressed: None,
            application: [412, 3],
            data: data(&message[7..]),
        }
    }

    /// What the proved code reads from a good area.
    pub fn of_area(message: &[u8]) -> Head {
        let area: Area = read(message).expect("a good area");
        let addressed =
            Addressed { sequence: area.sequence.into(), destination: area.destination, resent: area.resent == 1 };
        Head {
            message: 6,
            repeat: area.repeat.into(),
            source: area.source,
            addressed: Some(addressed),
            application: [412, 11],
            data: data(&message[11..]),
        }
    }

    /// What a line of gpsd's JSON says, if it is one of these messages.
    fn of_line(line: &str) -> Option<Head> {
        let number = |key: &str| value(line, key)?.parse().ok();
        let message = number("type")?;
        let addressed = match message {
            6 => Some(Addressed {
                sequence: number("seqno")?,
                destination: number("dest_mmsi")?,
                resent: value(line, "retransmit")?.parse().ok()?,
            }),
            _ => None,
        };
        Some(Head {
            message,
            repeat: number("repeat")?,
            source: number("mmsi")?,
            addressed,
            application: [number("dac")?, number("fid")?],
            data: value(line, "data")?.to_string(),
        })
    }
}

fn data(bytes: &[u8]) -> String {
    let digits: String = bytes.iter().map(|byte| format!("{byte:02x}")).collect();
    format!("{}:{digits}", 8 * bytes.len())
}

/// The value of a key in a flat object without escapes: all that gpsd prints of these messages.
fn value<'a>(line: &'a str, key: &str) -> Option<&'a str> {
    let (_, rest) = line.split_once(&format!("\"{key}\":"))?;
    match rest.strip_prefix('"') {
        Some(text) => Some(text.split_once('"')?.0),
        None => rest.split([',', '}']).next(),
    }
}

/// How what gpsd said differs from what is due, message by message.
pub fn faults(said: &str, due: &[Head]) -> Vec<String> {
    let lines: Vec<&str> = said.lines().filter(|line| value(line, "class") == Some("AIS")).collect();
    let mut faults = Vec::new();
    if lines.len() != due.len() {
        faults.push(format!("{} of {} messages decoded", lines.len(), due.len()));
    }
    for (line, due) in lines.into_iter().zip(due) {
        if Head::of_line(line).as_ref() != Some(due) {
            faults.push(format!("{line}, due {due:?}"));
        }
    }
    faults
}

/// A message 6 as it was heard, `!AIVDM,1,1,,B,6B?n;be:cbapalgc;i6?Ow4,2*4A`.
const HEARD: [u8; 17] =
    [0x19, 0x23, 0xF6, 0x2E, 0xAB, 0x4A, 0xAE, 0xAA, 0x78, 0xA7, 0x4B, 0xEB, 0x2F, 0x11, 0x8F, 0x7F, 0xF1];

/// Lines in the form of gpsd's JSON: the message above, then the cyclone and the rectangle of `numbers`.
const HEARD_LINE: &str = concat!(
    r#"{"class":"AIS","device":"stdin","type":6,"repeat":1,"mmsi":150834090,"scaled":true,"seqno":3,"#,
    r#""dest_mmsi":313240222,"retransmit":false,"dac":669,"fid":11,"data":"48:eb2f118f7ff1"}"#,
);
const CYCLONE_LINE: &str = concat!(
    r#"{"class":"AIS","device":"stdin","type":8,"repeat":0,"mmsi":4122100,"scaled":true,"#,
    r#""dac":412,"fid":3,"data":"128:17270e124f8024b0f0a4edc968d99e60"}"#,
);
const RECTANGLE_LINE: &str = concat!(
    r#"{"class":"AIS","device":"stdin","type":6,"repeat":0,"mmsi":4122100,"scaled":true,"seqno":3,"#,
    r#""dest_mmsi":413456789,"retransmit":true,"dac":412,"fid":11,"data":"160:6b5456b03cfef506ad41407a906608d99e8e4940"}"#,
);

/// What needs no decoder to be tested: sentences are made and lines are understood.
pub fn run(tally: &mut Tally) {
    tally.same("gpsd: armour", armour(&HEARD), ("6B?n;be:cbapalgc;i6?Ow4".to_string(), 2));
    tally.same("gpsd: a sentence's sum", sum("AIVDM,1,1,,B,6B?n;be:cbapalgc;i6?Ow4,2"), 0x4A);
    let sizes = [sentence(&WARNINGS[0].1), sentence(&AREAS[0].1)].map(|sentence| sentence.len());
    tally.same("gpsd: 31 and 42 characters", sizes, [52, 63]);

    let heard = Head {
        message: 6,
        repeat: 1,
        source: 150_834_090,
        addressed: Some(Addressed { sequence: 3, destination: 313_240_222, resent: false }),
        application: [669, 11],
        data: data(&HEARD[11..]),
    };
    tally.same("gpsd: a line understood", Head::of_line(HEARD_LINE), Some(heard));
    tally.same("gpsd: another type's line", Head::of_line(r#"{"class":"AIS","type":1,"repeat":0}"#), None);

    let due = [Head::of_warning(&WARNINGS[0].1), Head::of_area(&AREAS[1].1)];
    let said = format!("{{\"class\":\"VERSION\"}}\r\n{CYCLONE_LINE}\r\n{RECTANGLE_LINE}\r\n");
    tally.same("gpsd: lines that agree", faults(&said, &due), Vec::new());
    for (name, from, to) in [
        ("repeat", "\"repeat\":0", "\"repeat\":1"),
        ("source", "\"mmsi\":4122100", "\"mmsi\":412210"),
        ("sequence", "\"seqno\":3", "\"seqno\":2"),
        ("destination", "\"dest_mmsi\":413456789", "\"dest_mmsi\":413456788"),
        ("resent", "\"retransmit\":true", "\"retransmit\":false"),
        ("data", "d99e60", "d99e61"),
    ] {
        let found = faults(&said.replacen(from, to, 1), &due).len();
        tally.same(&format!("gpsd: another {name} is a fault"), found, 1);
    }
    tally.same("gpsd: a message left out is a fault", faults(CYCLONE_LINE, &due).len(), 1);
}
