//! The declustered shelf in plain Rust: what document 01 says, in the order in which it says it, and nothing done for speed.
//!
//! It is written from document 01 and the list of its readings, and not from the library, so that the two can be held
//! against each other. A refused call gives document 01's number.

#![forbid(unsafe_code)]
#![deny(missing_docs)]

mod balance;
mod image;
mod layout;
mod loss;
mod placing;
mod sheet;
mod shelf;
mod show;
mod units;

pub use image::{blank, read, scrub, write, write_stripe, Cost};
pub use layout::layout;
pub use loss::{lose, rebuild};
pub use placing::{for_every_stripe, look_up, place, run, Found, Place, Record, Stripe};
pub use sheet::{open, sheet_length, write_back};
pub use shelf::Shelf;
pub use show::{show_address, show_place, Shown};
