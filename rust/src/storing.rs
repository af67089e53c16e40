//! The calls on the image: blank, writes, read and scrub.

use crate::calls::{self, COST_BYTES, WRONG_BYTES};
use crate::place::number;
use crate::refusal::{accepted, Refusal};
use crate::Shelf;

/// How many units a call read and wrote.
#[derive(Clone, Copy, Debug, PartialEq, Eq, Hash)]
pub struct Cost {
    /// Units read.
    pub read: u64,
    /// Units written.
    pub written: u64,
}

impl Cost {
    fn of(bytes: &[u8]) -> Cost {
        Cost {
            read: number(bytes, 0),
            written: number(bytes, 1),
        }
    }
}

impl Shelf {
    /// Makes every image byte zero.
    pub fn blank(&self, image: &mut [u8]) -> Result<(), Refusal> {
        accepted(calls::blank(&self.bytes, image))
    }

    /// Writes the unit of an address, and its parity.
    ///
    /// ```
    /// # let sheet = [0x10, 0x42, 0x00, 0x10, 0x00, 0x10, 0x00, 0x10];
    /// # let shelf = shqemtuli::Shelf::open(&sheet).unwrap();
    /// let mut image = [0; 4];
    /// let cost = shelf.write(&mut image, 0, &[7]).unwrap();
    /// assert_eq!((cost.read, cost.written), (2, 2));
    /// assert_eq!(image, [7, 0, 7, 0]);
    /// ```
    pub fn write(&self, image: &mut [u8], address: u64, unit: &[u8]) -> Result<Cost, Refusal> {
        let mut cost = [0; COST_BYTES];
        accepted(calls::write(&self.bytes, image, address, unit, &mut cost))?;
        Ok(Cost::of(&cost))
    }

    /// Writes all data units of a stripe, in address order, and its parity.
    ///
    /// ```
    /// # let sheet = [0x10, 0x42, 0x00, 0x10, 0x00, 0x10, 0x00, 0x10];
    /// # let shelf = shqemtuli::Shelf::open(&sheet).unwrap();
    /// let mut image = [0; 4];
    /// let cost = shelf.write_stripe(&mut image, 1, &[9]).unwrap();
    /// assert_eq!((cost.read, cost.written), (0, 2));
    /// assert_eq!(image, [0, 9, 0, 9]);
    /// ```
    pub fn write_stripe(
        &self,
        image: &mut [u8],
        stripe: u64,
        buffer: &[u8],
    ) -> Result<Cost, Refusal> {
        let mut cost = [0; COST_BYTES];
        let number = calls::write_stripe(&self.bytes, image, stripe, buffer, &mut cost);
        accepted(number)?;
        Ok(Cost::of(&cost))
    }

    /// Reads the unit of an address into the buffer, from the rest of its stripe where its disk is lost.
    pub fn read(&self, image: &[u8], address: u64, buffer: &mut [u8]) -> Result<Cost, Refusal> {
        let mut cost = [0; COST_BYTES];
        accepted(calls::read(&self.bytes, image, address, buffer, &mut cost))?;
        Ok(Cost::of(&cost))
    }

    /// The number of wrong stripes: those whose units' exclusive-or is not all zeros.
    ///
    /// ```
    /// # let sheet = [0x10, 0x42, 0x00, 0x10, 0x00, 0x10, 0x00, 0x10];
    /// # let shelf = shqemtuli::Shelf::open(&sheet).unwrap();
    /// assert_eq!(shelf.scrub(&[7, 0, 7, 0]), Ok(0));
    /// assert_eq!(shelf.scrub(&[7, 0, 6, 1]), Ok(2));
    /// ```
    pub fn scrub(&self, image: &[u8]) -> Result<u64, Refusal> {
        let mut wrong = [0; WRONG_BYTES];
        accepted(calls::scrub(&self.bytes, image, &mut wrong))?;
        Ok(number(&wrong, 0))
    }
}
