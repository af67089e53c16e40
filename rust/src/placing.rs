//! Placing, looking up and runs. A lost disk changes none of them.

use crate::calls::{self, FOUND_BYTES, PLACE_BYTES};
use crate::place::{Found, Place};
use crate::refusal::{accepted, Refusal};
use crate::Shelf;

impl Shelf {
    /// Where an address stands.
    ///
    /// ```
    /// # let sheet = [0x10, 0x42, 0x00, 0x10, 0x00, 0x10, 0x00, 0x10];
    /// # let shelf = shqemtuli::Shelf::open(&sheet).unwrap();
    /// let place = shelf.place(1).unwrap();
    /// assert_eq!((place.disk, place.offset), (1, 1));
    /// assert_eq!((place.parity_disk, place.parity_offset), (0, 1));
    /// assert!(shelf.place(2).is_err());
    /// ```
    pub fn place(&self, address: u64) -> Result<Place, Refusal> {
        let mut place = [0; PLACE_BYTES];
        accepted(calls::place(&self.bytes, address, &mut place))?;
        Ok(Place::of(&place))
    }

    /// What stands at a place.
    ///
    /// ```
    /// # use shqemtuli::Unit;
    /// # let sheet = [0x10, 0x42, 0x00, 0x10, 0x00, 0x10, 0x00, 0x10];
    /// # let shelf = shqemtuli::Shelf::open(&sheet).unwrap();
    /// assert_eq!(shelf.look_up(1, 1).unwrap().unit, Unit::Data(1));
    /// assert_eq!(shelf.look_up(0, 1).unwrap().unit, Unit::Parity);
    /// ```
    pub fn look_up(&self, disk: u64, offset: u64) -> Result<Found, Refusal> {
        let mut found = [0; FOUND_BYTES];
        accepted(calls::look_up(&self.bytes, disk, offset, &mut found))?;
        Ok(Found::of(&found))
    }

    /// Fills the list with the places of consecutive addresses from the first one on.
    ///
    /// ```
    /// # use shqemtuli::Place;
    /// # let sheet = [0x10, 0x42, 0x00, 0x10, 0x00, 0x10, 0x00, 0x10];
    /// # let shelf = shqemtuli::Shelf::open(&sheet).unwrap();
    /// let mut list = [Place::default(); 2];
    /// shelf.run(0, &mut list).unwrap();
    /// assert_eq!(list[1], shelf.place(1).unwrap());
    /// ```
    pub fn run(&self, first: u64, list: &mut [Place]) -> Result<(), Refusal> {
        let mut places = vec![0; PLACE_BYTES * list.len()];
        accepted(calls::run(&self.bytes, first, &mut places))?;
        for (place, bytes) in list.iter_mut().zip(places.chunks(PLACE_BYTES)) {
            *place = Place::of(bytes);
        }
        Ok(())
    }
}
