//! Parity-declustered disk shelves: where each unit of a shelf of disks stands, and reads, writes and the rebuild of a
//! lost disk over an image of the shelf that the caller lends.
//!
//! The work is done by a library that is proved to do what its paper says ("document 01" of the repository); this crate
//! is the safe way to it from Rust. [`Shelf`] has the calls, [`Refusal`] the reasons why one is refused, and [`calls`]
//! the same on bytes for a host that wants no more.
//!
//! ```
//! use shqemtuli::{Shelf, Refusal};
//!
//! // Four disks, three units in a stripe, units of one byte.
//! let sheet = [
//!     0x10, 0x83, 0x00, 0x40, 0x00, 0x10, 0x00, 0x10, 0x80, 0x04, 0x30, 0x02, 0x0C, 0x10, 0x83,
//! ];
//! let mut shelf = Shelf::open(&sheet)?;
//! let mut image = vec![0; shelf.image_size() as usize];
//! shelf.blank(&mut image)?;
//! shelf.write(&mut image, 0, &[0x5A])?;
//! shelf.write(&mut image, 1, &[0x0F])?;
//!
//! // Disk 0 is lost; what was on it is still there.
//! shelf.lose(0)?;
//! let mut unit = [0];
//! shelf.read(&image, 0, &mut unit)?;
//! assert_eq!(unit, [0x5A]);
//!
//! // A new disk with any bytes on it takes the old one's place.
//! image[..9].fill(0xEE);
//! let counts = shelf.rebuild(&mut image)?;
//! assert_eq!(counts[..5], [0, 6, 6, 6, 0]);
//! assert_eq!(shelf.scrub(&image)?, 0);
//! # Ok::<(), Refusal>(())
//! ```

#![deny(missing_docs)]

pub mod calls;
mod losing;
mod place;
mod placing;
pub mod raw;
mod refusal;
mod shelf;
mod showing;
mod storing;

pub use place::{Found, Place, Unit};
pub use refusal::Refusal;
pub use shelf::Shelf;
pub use storing::Cost;

/// Whether the library runs under an emulator here, as it does on a machine that is not x86-64. Its answers are the same;
/// its times say nothing.
pub const EMULATED: bool = matches!(env!("SHQEMTULI_EMULATED").as_bytes(), b"true");
