//! Puts the cases A to L of 01, "Numbers to stand by", to the proved code as it is compiled, and prints a line for each:
//! what goes in, the number answered, and what comes out. `./test` holds the lines to samples/numbers.txt, which is
//! written from 01 by hand and not by this program.

use bellnewt::notice::{Angle, Area, Field, Head, Notice, Point};
use bellnewt::{ais, desk, distress, notice, packet as packets_of, serial};
use record::{answer, Gljc, Packet, Place, Refusal, Report, Txsq, CHINESE};
use trial::numbers::desk::{packets, NUMBER};
use trial::numbers::distress::{example_with_longitude, EXAMPLE, EXAMPLE_REPORT};
use trial::numbers::notice::{outermost, BARE, BARE_HEAD};
use trial::numbers::packet::{packet, HEAD, HEAD_RECORD};
use trial::numbers::serial::{CHECK, CHECK_AS_PRINTED, REQUEST};

/// The longitude of a report that has none.
const NO_LONGITUDE: i32 = 10_860_000;

fn main() {
    frames();
    reports();
    notices();
    one_packet();
    two_packets_of_three();
    slots();
    outline();
}

fn hex(bytes: &[u8]) -> String {
    bytes.iter().map(|byte| format!("{byte:02X}")).collect::<Vec<_>>().join(" ")
}

/// Prints a case: 0 and what came out, or the refusal's number alone.
fn print_case(case: &str, answer: Result<String, Refusal>) {
    match answer {
        Ok(values) => println!("{case}: 0, {values}"),
        Err(refusal) => println!("{case}: {}", refusal.code()),
    }
}

fn frames() {
    let request = serial::read::<Txsq>(&REQUEST).map(|(record, content)| {
        format!("own address {}, {} bits, content {}", record.address, record.bits, hex(content))
    });
    print_case(&format!("A TXSQ {} read", hex(&REQUEST)), request);
    for frame in [CHECK, CHECK_AS_PRINTED] {
        let answer = serial::read::<Gljc>(&frame);
        let values = answer.map(|(record, _)| format!("own address {}, minutes {}", record.address, record.minutes));
        print_case(&format!("B GLJC {} read", hex(&frame)), values);
    }
}

fn reports() {
    read_report("C", &EXAMPLE);
    for (case, longitude, spelled) in [
        ("D", 10_800_000, [0x52, 0x65, 0xC0, 0x00]),
        ("E", 10_800_001, [0x52, 0x65, 0xC0, 0x80]),
        ("F", NO_LONGITUDE, [0x52, 0xDA, 0xF0, 0x00]),
    ] {
        let mut buf = [0; Report::BYTES];
        let answer = distress::write(&mut buf, &Report { longitude, ..EXAMPLE_REPORT });
        print_case(&format!("{case} report of C with longitude {longitude} written"), answer.map(|()| hex(&buf)));
        read_report(case, &example_with_longitude(spelled));
    }
}

fn read_report(case: &str, message: &[u8]) {
    let values = distress::read(message).map(|report| {
        let longitude = match report.longitude {
            NO_LONGITUDE => "none".to_string(),
            known => known.to_string(),
        };
        format!("longitude {longitude}, latitude {}", report.latitude)
    });
    print_case(&format!("{case} report {} read", hex(message)), values);
}

fn notices() {
    write_notice("G", BARE_HEAD);
    let read = notice::read(&BARE, CHINESE).map(|notice| spell(&notice));
    print_case(&format!("G notice {} read", hex(&BARE)), read);

    let mut bytes = BARE;
    let answer = notice::correct(&mut bytes, CHINESE, Field::Year, 25);
    let case = format!("H notice {} with its year corrected to 25", hex(&BARE));
    print_case(&case, answer.map(|()| hex(&bytes)));
    write_notice("H", Head { year: 25, ..BARE_HEAD });
}

/// Writes a notice that has nothing but a head.
fn write_notice(case: &str, head: Head) {
    let notice = Notice { head, areas: vec![], text: vec![] };
    let mut buf = vec![0; notice.bytes()];
    let answer = notice::write(&mut buf, CHINESE, &notice);
    print_case(&format!("{case} notice of {} written", spell(&notice)), answer.map(|()| hex(&buf)));
}

/// What a notice says.
fn spell(notice: &Notice) -> String {
    let Head { source, station, serial, year, kind, subtype, expiry } = notice.head;
    let is_bare = expiry == 0 && notice.areas.is_empty() && notice.text.is_empty();
    let more = if is_bare { "nothing more" } else { "and more" };
    format!("source {source}, station {station}, serial {serial}, year {year}, type {kind}, subtype {subtype}, {more}")
}

fn one_packet() {
    let spell = |record: &Packet, content: &[u8]| {
        let language = if record.language == CHINESE { "Chinese" } else { "English" };
        let Packet { number, total, own, .. } = record;
        format!("{language}, number {number}, {} of {total}, content {}", own + 1, hex(content))
    };
    let mut buf = [0; Packet::HEAD + BARE.len()];
    let answer = packets_of::write(&mut buf, &HEAD_RECORD, &BARE);
    let case = format!("I packet of {} written", spell(&HEAD_RECORD, &BARE));
    print_case(&case, answer.map(|()| hex(&buf)));

    let message = packet(HEAD, &BARE);
    let values = packets_of::read(&message).map(|(record, content)| spell(&record, content));
    print_case(&format!("I packet {} read", hex(&message)), values);
}

/// Asks by the call that C has, so that the number 9 and the row are as it answers them.
fn two_packets_of_three() {
    let [first, _, third] = packets();
    let (mut places, mut store, mut again) = ([0; Place::ROW], vec![0; Place::STORE], 0);
    let mut accept = |packet: &[u8]| answer(desk::accept_in(&mut places, &mut store, packet, &mut again));
    let accepted = [accept(&third), accept(&first)];

    let (mut notice, mut missing, mut count, mut language) = ([0; 0], [0; Place::MISSING], 0, 0);
    let asked = desk::ask_in(&mut places, &store, NUMBER, &mut notice, &mut missing, &mut count, &mut language);
    let numbers: Vec<String> = missing[..count].iter().map(u16::to_string).collect();
    println!(
        "J desk from empty, total 3, packets 2 and 0 accepted: {} and {}, then asked: {}, missing {}",
        accepted[0],
        accepted[1],
        answer(asked),
        numbers.join(" ")
    );
}

fn slots() {
    for bytes in [12, 13, 121, 122] {
        let values = ais::slots(8, bytes).map(|slots| format!("slots {slots}"));
        print_case(&format!("K message 8 of {bytes} bytes"), values);
    }
}

fn outline() {
    let point = outermost();
    let notice = Notice { head: BARE_HEAD, areas: vec![Area::Points(vec![point])], text: vec![] };
    let mut bytes = vec![0; notice.bytes()];
    let answer = notice::write(&mut bytes, CHINESE, &notice).and_then(|()| notice::outline(&bytes, CHINESE));
    let numbers = answer.map(|points| points.as_flattened().iter().map(i32::to_string).collect::<Vec<_>>().join(", "));
    print_case(&format!("L notice {} with the point {} outlined", hex(&bytes), place(&point)), numbers);
}

/// A point as 01 writes it.
fn place(point: &Point) -> String {
    let angle = |[positive, negative]: [char; 2], angle: Angle| {
        let side = if angle.negative { negative } else { positive };
        format!("{side} {}°{:02}.{:02}'", angle.degrees, angle.minutes, angle.hundredths)
    };
    let latitude = angle(['N', 'S'], point.latitude_parts());
    let longitude = angle(['E', 'W'], point.longitude_parts());
    format!("{latitude}, {longitude}")
}
