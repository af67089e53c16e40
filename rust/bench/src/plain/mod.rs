//! The shelf as a plain Rust program would have it: the same checks, no proofs, no boundary.

pub mod layout;
pub mod rebuild;
pub mod sheet;
pub mod shelf;
pub mod units;

pub use shelf::Shelf;
