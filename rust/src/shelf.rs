//! The shelf value: opening, writing back, its bytes and its numbers.

use crate::calls::{self, SHELF_BYTES};
use crate::place::number;
use crate::refusal::{accepted, Refusal};
use std::fmt;

/// A shelf value: a balanced design, the number of full tables, the size of a unit and which disk is lost, if any.
///
/// It is always one that an accepted opening can give, so [`Refusal::NotAShelf`] comes from [`Shelf::from_bytes`] alone.
///
/// ```
/// use shqemtuli::Shelf;
///
/// let sheet = [0x10, 0x42, 0x00, 0x10, 0x00, 0x10, 0x00, 0x10];
/// let shelf = Shelf::open(&sheet).unwrap();
/// assert_eq!((shelf.v(), shelf.k(), shelf.b()), (2, 2, 1));
/// assert_eq!((shelf.stripes(), shelf.addresses(), shelf.image_size()), (2, 2, 4));
/// assert_eq!(shelf.write_back(), sheet);
/// ```
#[derive(Clone, PartialEq, Eq)]
pub struct Shelf {
    pub(crate) bytes: [u8; SHELF_BYTES],
}

impl Shelf {
    /// Opens a sheet.
    pub fn open(sheet: &[u8]) -> Result<Shelf, Refusal> {
        let mut bytes = [0; SHELF_BYTES];
        accepted(calls::open(sheet, &mut bytes))?;
        Ok(Shelf { bytes })
    }

    /// The shelf that these bytes hold, as [`Shelf::as_bytes`] gave them.
    ///
    /// ```
    /// use shqemtuli::{Refusal, Shelf};
    ///
    /// let mut shelf = Shelf::open(&[0x10, 0x42, 0x00, 0x10, 0x00, 0x10, 0x00, 0x10])?;
    /// shelf.lose(1)?;
    /// let mut stored = shelf.as_bytes().to_vec();
    /// assert_eq!(Shelf::from_bytes(&stored)?.lost(), Some(1));
    /// stored[2079] ^= 1;
    /// assert_eq!(Shelf::from_bytes(&stored), Err(Refusal::NotAShelf));
    /// # Ok::<(), Refusal>(())
    /// ```
    pub fn from_bytes(stored: &[u8]) -> Result<Shelf, Refusal> {
        // A sheet is never empty, so a length of 0 says that these bytes are no shelf.
        if calls::sheet_length(stored) == 0 {
            return Err(Refusal::NotAShelf);
        }
        let bytes = stored.try_into().map_err(|_| Refusal::NotAShelf)?;
        Ok(Shelf { bytes })
    }

    /// The bytes of the shelf value, to be kept on stable storage. The lost disk is among them.
    pub fn as_bytes(&self) -> &[u8; SHELF_BYTES] {
        &self.bytes
    }

    /// The sheet. The lost disk is not part of it.
    pub fn write_back(&self) -> Vec<u8> {
        let mut sheet = vec![0; self.sheet_length() as usize];
        let number = calls::write_back(&self.bytes, &mut sheet);
        accepted(number).expect("a shelf has a sheet");
        sheet
    }

    /// Writes the sheet into the first bytes of the buffer and gives its length; the bytes after it keep their values.
    pub fn write_back_into(&self, buffer: &mut [u8]) -> Result<u64, Refusal> {
        accepted(calls::write_back(&self.bytes, buffer))?;
        Ok(self.sheet_length())
    }

    /// The number of disks.
    pub fn v(&self) -> u64 {
        number(&self.bytes, 0)
    }

    /// The number of units in a stripe.
    pub fn k(&self) -> u64 {
        number(&self.bytes, 1)
    }

    /// The number of tuples.
    pub fn b(&self) -> u64 {
        number(&self.bytes, 2)
    }

    /// T, the number of full tables.
    pub fn full_tables(&self) -> u64 {
        number(&self.bytes, 3)
    }

    /// u: a unit is 2^u bytes.
    pub fn u(&self) -> u64 {
        number(&self.bytes, 4)
    }

    /// In how many tuples each disk stands.
    pub fn r(&self) -> u64 {
        number(&self.bytes, 5)
    }

    /// In how many tuples each pair of disks stands.
    pub fn lambda(&self) -> u64 {
        number(&self.bytes, 6)
    }

    /// The lost disk, if any.
    pub fn lost(&self) -> Option<u64> {
        // One more than the disk, or 0.
        number(&self.bytes, 7).checked_sub(1)
    }

    /// The tuples, in order.
    pub fn tuples(&self) -> impl Iterator<Item = &[u8]> {
        let disks = &self.bytes[32..][..(self.b() * self.k()) as usize];
        disks.chunks(self.k() as usize)
    }

    /// The bytes of the sheet.
    pub fn sheet_length(&self) -> u64 {
        calls::sheet_length(&self.bytes)
    }

    /// The bytes of the image: v·T·r·k·U.
    pub fn image_size(&self) -> u64 {
        calls::image_size(&self.bytes)
    }

    /// U, the bytes of a unit.
    pub fn unit_size(&self) -> u64 {
        calls::unit_size(&self.bytes)
    }

    /// S, the number of stripes.
    pub fn stripes(&self) -> u64 {
        calls::stripes(&self.bytes)
    }

    /// N, the number of addresses.
    pub fn addresses(&self) -> u64 {
        calls::addresses(&self.bytes)
    }

    /// The number of units on each disk: T·r·k.
    pub fn offsets(&self) -> u64 {
        calls::offsets(&self.bytes)
    }
}

impl fmt::Debug for Shelf {
    fn fmt(&self, to: &mut fmt::Formatter<'_>) -> fmt::Result {
        to.debug_struct("Shelf")
            .field("v", &self.v())
            .field("k", &self.k())
            .field("b", &self.b())
            .field("full_tables", &self.full_tables())
            .field("u", &self.u())
            .field("r", &self.r())
            .field("lambda", &self.lambda())
            .field("lost", &self.lost())
            .finish_non_exhaustive()
    }
}
