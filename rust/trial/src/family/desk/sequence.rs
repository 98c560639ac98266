//! A sequence of calls of the desk, made by both programs.

use super::{Calls, Paper, ACCEPT, ACCEPT_AGAIN, ASK, DROP};
use crate::harness::{told, Cell, Counts, Guarded};
use crate::inputs::desk::{self as inputs, Request, Traffic};
use crate::inputs::Random;
use bellnewt::notice::Notice;
use record::Place;

/// What a call is lent besides the places.
#[derive(Clone, PartialEq)]
struct Lent {
    store: Guarded<u8>,
    packet: Guarded<u8>,
    again: Guarded<u8>,
    notice: Guarded<u8>,
    missing: Guarded<u16>,
    count: Guarded<usize>,
    language: Guarded<u8>,
}

/// Bytes and entries past the longest answer, which may be lent too.
const MORE: usize = 40;

impl Lent {
    fn new(random: &mut Random) -> Lent {
        Lent {
            store: Guarded::any(random, Place::STORE + MORE),
            packet: Guarded::any(random, 0),
            again: Guarded::any(random, 1),
            notice: Guarded::any(random, Notice::GREATEST + MORE),
            missing: Guarded::any(random, Place::MISSING + MORE),
            count: Guarded::any(random, 1),
            language: Guarded::any(random, 1),
        }
    }

    /// The lent parts on which the programs differ, and where first.
    fn differing(&self, other: &Lent) -> Vec<(&'static str, isize)> {
        [
            ("store", self.store.differs(&other.store)),
            ("packet", self.packet.differs(&other.packet)),
            ("again", self.again.differs(&other.again)),
            ("notice", self.notice.differs(&other.notice)),
            ("missing", self.missing.differs(&other.missing)),
            ("count", self.count.differs(&other.count)),
            ("language", self.language.differs(&other.language)),
        ]
        .into_iter()
        .filter_map(|(name, place)| place.map(|place| (name, place)))
        .collect()
    }
}

/// A call, and how many bytes of the row of places and of the store it is lent.
#[derive(Debug)]
struct Step {
    request: Request,
    row: usize,
    store: usize,
}

impl Step {
    /// The call's place in `CALLS`, unless it answers "again".
    fn call(&self) -> usize {
        match self.request {
            Request::Accept(_) => ACCEPT,
            Request::Ask { .. } => ASK,
            Request::Drop(_) => DROP,
        }
    }

    fn answer<C: Calls>(&self, places: &mut [C::Cell], lent: &mut Lent) -> u32 {
        let store = &mut lent.store.part()[..self.store];
        match &self.request {
            Request::Accept(_) => C::accept(places, store, lent.packet.part(), &mut lent.again.part()[0]),
            Request::Ask { number, notice, missing } => C::ask(
                places,
                store,
                *number,
                &mut lent.notice.part()[..*notice],
                &mut lent.missing.part()[..*missing],
                &mut lent.count.part()[0],
                &mut lent.language.part()[0],
            ),
            Request::Drop(number) => C::drop(places, store, *number),
        }
    }
}

/// The memory of both programs' desks, and what it was before the call.
struct Desks<C: Calls> {
    row: Guarded<C::Cell>,
    row_before: Guarded<C::Cell>,
    /// The independent program's row.
    places: Vec<Place>,
    proved: Lent,
    paper: Lent,
    before: Lent,
}

impl<C: Calls<Cell: Cell + PartialEq>> Desks<C> {
    fn new(random: &mut Random) -> Desks<C> {
        let row = inputs::empty_row(random);
        let places = Paper::places(&row);
        let row = Guarded::new(random, C::places(&row));
        let lent = Lent::new(random);
        Desks { row_before: row.clone(), row, places, proved: lent.clone(), paper: lent.clone(), before: lent }
    }

    /// The bytes that spell the row.
    fn bytes(&mut self) -> Vec<u8> {
        C::row(self.row.part())
    }

    /// Lends both programs another row of the same size, as far as the proved program's cells can say it.
    fn lend_row(&mut self, row: &[u8]) {
        let cells = C::places(row);
        self.row.part().copy_from_slice(&cells);
        self.row_before.part().copy_from_slice(&cells);
        self.places = Paper::places(&C::row(&cells));
    }

    fn lend_packet(&mut self, packet: &Guarded<u8>) {
        for lent in [&mut self.proved, &mut self.paper, &mut self.before] {
            lent.packet = packet.clone();
        }
    }

    /// The row as it is due: what it was before, and in it the independent program's places.
    fn row_due(&self) -> Guarded<C::Cell> {
        let mut due = self.row_before.clone();
        let cells = C::places(&Paper::row(&self.places));
        due.part()[..cells.len()].copy_from_slice(&cells);
        due
    }

    /// Makes a call by both programs and compares the answers, and every lent cell with its guards. Gives the answer.
    fn step(&mut self, step: &Step, counts: &mut Counts, shown: impl FnOnce() -> String) -> Option<u32> {
        let answer = step.answer::<C>(&mut self.row.part()[..step.row / C::CELL], &mut self.proved);
        let due = step.answer::<Paper>(&mut self.places[..step.row / Place::BYTES], &mut self.paper);
        let row_due = self.row_due();
        let again = matches!(step.request, Request::Accept(_)) && due == 0 && self.paper.again.part()[0] == 1;
        let call = if again { ACCEPT_AGAIN } else { step.call() };
        counts.meet(call, due, |_, _| None);

        // Only 9 gives something beside its number.
        let kept = answer == 0 || answer == 9 || (self.proved == self.before && self.row == self.row_before);
        if answer == due && self.row == row_due && self.proved == self.paper && kept {
            if answer == 0 || answer == 9 {
                self.before = self.proved.clone();
                self.row_before = row_due;
            }
            return Some(due);
        }
        let (row, lent) = (self.row.differs(&row_due), self.proved.differing(&self.paper));
        counts.differ(call, || {
            let (shown, answer, due) = (shown(), told(answer), told(due));
            format!("{shown}: {step:?}\n  proved {answer}, due {due}; row differs at {row:?}; {lent:?}; kept: {kept}")
        });
        None
    }
}

/// How often a row of places is lent damaged, once in so many calls.
const DAMAGED: usize = 16;
/// How often what is not to be looked at is lent as anything, once in so many of the others.
const SCRIBBLED: usize = 50;
/// How often the row of places, or the store, is lent short, once in so many calls.
const SHORT: usize = 24;

/// Runs a sequence of so many calls from an empty desk. The first call on which the programs differ ends it.
pub fn compare<C: Calls<Cell: Cell + PartialEq>>(random: &mut Random, calls: i64, name: &str, counts: &mut Counts) {
    let mut desks = Desks::<C>::new(random);
    let mut traffic = Traffic::new(random);
    for call in 0..calls {
        let good = desks.bytes();
        let step = next_step(random, &mut traffic, &mut desks);
        let Some(due) = desks.step(&step, counts, || format!("{name}, call {call}")) else {
            return;
        };
        match step.request {
            Request::Ask { number, .. } | Request::Drop(number) if due == 0 => traffic.left(random, number),
            // After a row that was lent damaged, the sequence goes on with the good one.
            _ if due != 0 => desks.lend_row(&good),
            _ => (),
        }
    }
}

/// The next call. Lends its packet, and at times a row of damaged places.
fn next_step<C: Calls<Cell: Cell + PartialEq>>(
    random: &mut Random,
    traffic: &mut Traffic,
    desks: &mut Desks<C>,
) -> Step {
    let request = traffic.request(random, &desks.places[..Place::COUNT]);
    if let Request::Accept(packet) = &request {
        desks.lend_packet(&Guarded::new(random, packet.clone()));
    }
    let mut row = desks.bytes();
    if random.one_in(DAMAGED) {
        inputs::damage_row(random, &mut row);
        desks.lend_row(&row);
    } else if random.one_in(SCRIBBLED) {
        inputs::scribble(random, &mut row);
        desks.lend_row(&row);
    }
    let all = random.one_in(4);
    let bytes = if all { row.len() } else { inputs::lent(random, Place::ROW, SHORT).min(row.len()) };
    Step { request, row: bytes, store: inputs::lent(random, Place::STORE, SHORT) }
}
