//! Bellnewt's proved calls, as safe Rust.
//!
//! A harbour museum's relay boxes get satellite telegrams, ship broadcasts and notices that pier staff type or correct.
//! Bellnewt reads, writes and corrects these messages. Its code is proved to meet the definitions of each message; this
//! crate calls that code over slices and plain structs. The library is linked from `target/native/librelay.a`, which the
//! script `rust/native` makes.
//!
//! | Module | Messages | Calls |
//! |---|---|---|
//! | [`distress`] | the distress report and the sentence that carries one | read, write, correct |
//! | [`serial`] | the frames GLJC, TXSQ, TXXX and TXHZ | read, write, correct |
//! | [`ais`] | message 8 with 412/03, message 6 with 412/11 | read, write, correct; count slots |
//! | [`packet`] | the packet of a notice | read, write, correct; split a notice |
//! | [`notice`] | the notice | read, write, correct; its points for a chart |
//! | [`tide`] | the tide telegram | read, write, correct; its heights for a curve |
//! | [`desk`] | packets that come in any order | accept, ask, drop |
//!
//! # Example
//!
//! ```
//! use bellnewt::notice::{self, Field};
//! use bellnewt::packet::CHINESE;
//! use bellnewt::Refusal;
//!
//! // A notice without areas and text: source 4, station 1, serial 1 of the year 24, type 4, subtype 6.
//! let mut bytes = [0x20, 0x80, 0x02, 0x61, 0x18, 0x00, 0x00, 0x00];
//! assert_eq!(notice::read(&bytes, CHINESE)?.head.year, 24);
//!
//! // A correction changes that field's bits alone.
//! notice::correct(&mut bytes, CHINESE, Field::Year, 25)?;
//! assert_eq!(bytes, [0x20, 0x80, 0x02, 0x65, 0x18, 0x00, 0x00, 0x00]);
//!
//! // A refusal changes nothing, and says where: the year starts at bit 23.
//! let refusal = notice::correct(&mut bytes, CHINESE, Field::Year, 100).unwrap_err();
//! assert_eq!((refusal.code(), refusal.bit()), (4, 23));
//! assert_eq!(refusal.to_string(), "4 at bit 23: outside its range");
//! assert_eq!(notice::read(&bytes, CHINESE)?.head.year, 25);
//! # Ok::<(), Refusal>(())
//! ```
//!
//! # Refusals
//!
//! A call that does not accept what it is given answers a [`Refusal`]. Its number, [`Refusal::code`], says why:
//!
//! | Number | Name | Meaning |
//! |---|---|---|
//! | 1 | [`SIZE`](Refusal::SIZE) | the input's size does not fit its layout or limits |
//! | 2 | [`KIND`](Refusal::KIND) | this name, kind, version or application is not handled |
//! | 3 | [`CHECKSUM`](Refusal::CHECKSUM) | the checksum is wrong |
//! | 4 | [`RANGE`](Refusal::RANGE) | a field is outside its range, or has a reserved code |
//! | 5 | [`FILL`](Refusal::FILL) | a padding bit is not zero |
//! | 6 | [`ROOM`](Refusal::ROOM) | a lent buffer or row is too short |
//! | 7 | [`CONTRADICTS`](Refusal::CONTRADICTS) | the packet contradicts one that the desk holds |
//! | 8 | [`TAKEN`](Refusal::TAKEN) | all places of the desk are taken |
//! | 9 | [`INCOMPLETE`](Refusal::INCOMPLETE) | the notice is not complete |
//! | 10 | [`FIELD`](Refusal::FIELD) | there is no such field, or it decides the layout |
//! | 11 | [`UNKNOWN`](Refusal::UNKNOWN) | no notice of that number is open |
//!
//! [`Refusal::bit`] says where: it is the first bit of the field at fault, counted from the message's start, if a field
//! gave 1, 4 or 5, and else 0. The constants have bit 0; [`Refusal::at`] gives them another to compare with.
//!
//! A refusal leaves all lent memory as it was. Only 9 also lists the packets that are missing. `include/bellnewt.h` says
//! for each call which refusals it can give, in which order it tests for them, and which bit it shows.
//!
//! # Rows and records
//!
//! Each message has two sets of calls. `read`, `write` and `correct` work on records, structs with a field for each
//! number. Calls such as `read_row` are as in C: they fill memory that the caller lends, and allocate nothing.
//!
//! # Correcting
//!
//! A correction names a field by its number, which is a constant beside the record, and gives the plain number that the
//! field's bits shall spell. Where a field has a sign, that is the two's complement: -1 in 25 bits is 2^25 - 1.
#![warn(missing_docs)]
#![deny(unsafe_op_in_unsafe_fn)]

pub mod ais;
mod call;
pub mod desk;
pub mod distress;
pub mod notice;
pub mod packet;
pub mod serial;
pub mod tide;

#[doc(inline)]
pub use record::Refusal;
