//! Holds the proved calls to the papers.
//!
//! `inputs` makes good and damaged inputs from a seed. `family` has the calls of the library and of the independent
//! program side by side, and `harness` gives both the same inputs and compares their answers. `listing` does that with
//! the listing program. `places` lists the fields that have to be met. `numbers` asks for the numbers that 01 prints.
//! `gpsd` holds AIS messages to another decoder. `sample` makes the sample day log.
#![forbid(unsafe_code)]

pub mod family;
pub mod gpsd;
pub mod harness;
pub mod inputs;
pub mod listing;
pub mod numbers;
mod places;
pub mod sample;
