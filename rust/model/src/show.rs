//! Showing a unit: which part of what was lent is handed out.

use crate::image::try_shelf_and_image;
use crate::placing::{place, Place};
use crate::shelf::Shelf;
use crate::units::{is_lost, range};

/// What is handed out.
#[derive(Clone, Copy, Debug, PartialEq, Eq)]
pub enum Shown {
    /// The unit that begins at this byte of the image.
    Image(u64),
    /// The caller's second buffer, entire.
    Other,
}

/// The unit at a place. A refusal is the empty part; its number is given here for the tests.
pub fn show_place(shelf: &Shelf, image: &[u8], disk: u64, offset: u64) -> Result<Shown, u64> {
    try_shelf_and_image(shelf, image)?;
    if disk >= shelf.v || offset >= shelf.offsets() {
        return Err(12);
    }
    let place = Place { disk, offset };
    if is_lost(shelf, place) {
        return Err(14);
    }
    Ok(Shown::Image(range(shelf, place).start as u64))
}

/// The unit of an address: from the image, or the second buffer where its disk is lost.
pub fn show_address(shelf: &Shelf, image: &[u8], address: u64, other: &[u8]) -> Result<Shown, u64> {
    try_shelf_and_image(shelf, image)?;
    let data = place(shelf, address)?.data;
    if other.len() as u64 != shelf.unit_size() {
        return Err(13);
    }
    if is_lost(shelf, data) {
        return Ok(Shown::Other);
    }
    Ok(Shown::Image(range(shelf, data).start as u64))
}
