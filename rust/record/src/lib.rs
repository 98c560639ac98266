//! The records and refusal numbers of Bellnewt: plain types, and no calls.
//!
//! Two programs answer the same questions. One is the proved library, which the crate `bellnewt` wraps. The other is the
//! independent program, the crate `paper`. Both take and give these records, so that their answers can be compared, and
//! neither depends on the other. Nothing else is shared between them.
//!
//! A record may hold any values. Whether they are good is for a program to say, so no limit of a field is enforced here.
//!
//! A program that only wants to use the library depends on `bellnewt`, which exports all of this.
#![forbid(unsafe_code)]
#![warn(missing_docs)]

mod ais;
mod desk;
mod distress;
mod notice;
mod packet;
mod refusal;
mod serial;

pub use ais::{Ais, Area, Body, Shape, ShortTime, Time, Warning};
pub use desk::{Accepted, Place};
pub use distress::Report;
pub use notice::Head;
pub use packet::{Packet, CHINESE, ENGLISH};
pub use refusal::{answer, Refusal};
pub use serial::{Frame, Gljc, Txhz, Txsq, Txxx};

/// What a row that is too short for its record panics with.
const SHORT: &str = "a row has an entry for each number";
