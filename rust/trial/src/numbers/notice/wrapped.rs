//! The wrapper's calls over notices as records.

use super::notices::{notices, warning_areas, WARNING_EXPIRY, WARNING_HEAD, WARNING_OUTLINE, WARNING_TEXT};
use super::{BARE_HEAD, WARNING};
use crate::harness::Tally;
use bellnewt::notice::{correct, outline, read, write};
use bellnewt::notice::{Area, Expiry, Field, Head, Notice, Point};
use record::{Refusal, CHINESE, ENGLISH};

pub fn run(tally: &mut Tally) {
    calls(tally);
    corrections(tally);
}

/// The wrapper's calls over records.
fn calls(tally: &mut Tally) {
    for (case, message, language, notice) in notices() {
        tally.same(&format!("wrapper: {case}"), read(message, language), Ok(notice.clone()));
        tally.same(&format!("wrapper: {case}, its size"), notice.bytes(), message.len());
        let mut bytes = vec![0; message.len()];
        let answer = write(&mut bytes, language, &notice);
        tally.same(&format!("wrapper: {case} written"), (answer, &bytes[..]), (Ok(()), message));
    }
    tally.same("wrapper: no notice", read(&[], CHINESE), Err(Refusal::SIZE));
    let crowded = Notice { head: BARE_HEAD, areas: vec![Area::Sea { code: 0 }; 256], text: vec![] };
    tally.same("wrapper: 256 areas", write(&mut [0; 400], CHINESE, &crowded), Err(Refusal::RANGE.at(59)));
    tally.same("wrapper: outline", outline(&WARNING, ENGLISH), Ok(WARNING_OUTLINE.to_vec()));
    tally.same("wrapper: an expiry's number", WARNING_EXPIRY.number(), WARNING_HEAD.expiry);
    tally.same("wrapper: a number's expiry", Expiry::of_number(WARNING_HEAD.expiry), Some(WARNING_EXPIRY));
    tally.same("wrapper: no expiry", Expiry::of_number(0), None);
}

/// Fields corrected by their names.
fn corrections(tally: &mut Tally) {
    let mut bytes = WARNING;
    for (field, value, due) in [
        (Field::Year, 25, Ok(())),
        (Field::Code { area: 0 }, 99, Ok(())),
        (Field::Code { area: 1 }, 99, Err(Refusal::FIELD)),
        (Field::Latitude { area: 3, point: 0 }, 90 << 13, Ok(())),
        (Field::Latitude { area: 3, point: 1 }, 0, Err(Refusal::FIELD)),
        (Field::Longitude { area: 4, point: 2 }, 181 << 13, Err(Refusal::RANGE.at(390))),
        (Field::Longitude { area: 4, point: 2 }, 0, Ok(())),
        (Field::Longitude { area: 5, point: 0 }, 0, Err(Refusal::FIELD)),
        (Field::Radius { area: 3 }, 30, Ok(())),
        (Field::Unit { area: 3 }, 1, Ok(())),
        (Field::Unit { area: 0 }, 1, Err(Refusal::FIELD)),
    ] {
        tally.same(&format!("wrapper: {field:?} corrected"), correct(&mut bytes, ENGLISH, field, value), due);
    }
    let mut areas = warning_areas();
    areas[0] = Area::Sea { code: 99 };
    let Area::Polygon(points) = &mut areas[4] else { panic!("the last area is a polygon") };
    points[2].longitude = 0;
    let centre = areas[3].points()[0];
    tally.check(centre.longitude_parts().negative, "wrapper: a longitude in its parts");
    areas[3] = Area::Circle { centre: Point { latitude: 90 << 13, ..centre }, radius: 30, unit: 1 };
    let head = Head { year: 25, ..WARNING_HEAD };
    let corrected = Notice { head, areas, text: WARNING_TEXT.to_vec() };
    tally.same("wrapper: all that was corrected", read(&bytes, ENGLISH), Ok(corrected));
}
