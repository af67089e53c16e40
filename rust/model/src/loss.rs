//! Declaring a disk lost, and the whole rebuild.

use crate::image::try_shelf_and_image;
use crate::placing::{for_every_stripe, Place};
use crate::shelf::Shelf;
use crate::units::{fetch, is_lost, mixed, range, Reads};

/// Marks a disk as lost.
pub fn lose(shelf: &mut Shelf, disk: u64) -> Result<(), u64> {
    if !shelf.is_shelf() {
        return Err(10);
    }
    if disk >= shelf.v {
        return Err(12);
    }
    if shelf.lost.is_some() {
        return Err(14);
    }
    shelf.lost = Some(disk as u8);
    Ok(())
}

/// Writes every unit of the lost disk as the exclusive-or of the rest of its stripe, marks none lost, and gives how many
/// units it read from each disk.
pub fn rebuild(shelf: &mut Shelf, image: &mut [u8]) -> Result<Reads, u64> {
    try_shelf_and_image(shelf, image)?;
    if shelf.lost.is_none() {
        return Err(15);
    }
    let mut reads = [0; 64];
    for_every_stripe(shelf, |_, stripe| {
        let mut places = stripe.data.clone();
        places.push(stripe.parity);
        let (gone, rest): (Vec<Place>, Vec<Place>) =
            places.iter().partition(|&&place| is_lost(shelf, place));
        for place in gone {
            let units = rest.iter().map(|&at| fetch(shelf, image, at, &mut reads));
            let unit = mixed(&units.collect::<Vec<_>>());
            image[range(shelf, place)].copy_from_slice(&unit);
        }
    });
    shelf.lost = None;
    Ok(reads)
}
