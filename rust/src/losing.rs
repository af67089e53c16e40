//! Losing a disk and rebuilding it.

use crate::calls::{self, COUNTS_BYTES};
use crate::place::number;
use crate::refusal::{accepted, Refusal};
use crate::Shelf;

impl Shelf {
    /// Marks a disk as lost. From then on no byte of it is read or written until the rebuild.
    ///
    /// ```
    /// # use shqemtuli::Refusal;
    /// # let sheet = [0x10, 0x42, 0x00, 0x10, 0x00, 0x10, 0x00, 0x10];
    /// # let mut shelf = shqemtuli::Shelf::open(&sheet).unwrap();
    /// assert_eq!(shelf.lose(2), Err(Refusal::OutOfRange));
    /// assert_eq!(shelf.lose(1), Ok(()));
    /// assert_eq!(shelf.lose(0), Err(Refusal::SomeLost));
    /// assert_eq!(shelf.lost(), Some(1));
    /// ```
    pub fn lose(&mut self, disk: u64) -> Result<(), Refusal> {
        accepted(calls::lose(&mut self.bytes, disk))
    }

    /// Writes every unit of the lost disk anew, marks none lost, and gives how many units were read from each disk.
    ///
    /// ```
    /// # let sheet = [0x10, 0x42, 0x00, 0x10, 0x00, 0x10, 0x00, 0x10];
    /// # let mut shelf = shqemtuli::Shelf::open(&sheet).unwrap();
    /// let mut image = [0xEE, 0xEE, 7, 9];
    /// shelf.lose(0).unwrap();
    /// let counts = shelf.rebuild(&mut image).unwrap();
    /// assert_eq!(image, [7, 9, 7, 9]);
    /// assert_eq!(counts[..3], [0, 2, 0]);
    /// assert_eq!(shelf.lost(), None);
    /// ```
    pub fn rebuild(&mut self, image: &mut [u8]) -> Result<[u64; 64], Refusal> {
        let mut counts = [0; COUNTS_BYTES];
        accepted(calls::rebuild(&mut self.bytes, image, &mut counts))?;
        Ok(std::array::from_fn(|disk| number(&counts, disk)))
    }
}
