//! Units in the image, and how many of them are read and written.

use crate::placing::Place;
use crate::shelf::Shelf;

/// How many units were read from each disk.
pub type Reads = [u64; 64];

/// The bytes of the image at which a unit stands: v equal regions, disk 0 first, units in offset order.
pub fn range(shelf: &Shelf, place: Place) -> std::ops::Range<usize> {
    let size = shelf.unit_size();
    let from = (place.disk * shelf.offsets() + place.offset) * size;
    from as usize..(from + size) as usize
}

/// Whether the place is on the lost disk.
pub fn is_lost(shelf: &Shelf, place: Place) -> bool {
    shelf.lost.map(u64::from) == Some(place.disk)
}

/// Reads a unit and counts it. The lost disk is never read.
pub fn fetch(shelf: &Shelf, image: &[u8], place: Place, reads: &mut Reads) -> Vec<u8> {
    assert!(!is_lost(shelf, place), "a unit of the lost disk was read");
    reads[place.disk as usize] += 1;
    image[range(shelf, place)].to_vec()
}

/// Writes a unit and counts it. The lost disk is written by a rebuild alone, which does not come here.
pub fn store(shelf: &Shelf, image: &mut [u8], place: Place, unit: &[u8], written: &mut u64) {
    assert!(
        !is_lost(shelf, place),
        "a unit of the lost disk was written"
    );
    *written += 1;
    image[range(shelf, place)].copy_from_slice(unit);
}

/// The exclusive-or of the units, of which there is at least one.
pub fn mixed(units: &[Vec<u8>]) -> Vec<u8> {
    let mut sum = vec![0; units[0].len()];
    for unit in units {
        for (byte, &with) in sum.iter_mut().zip(unit) {
            *byte ^= with;
        }
    }
    sum
}
