//! Showing a unit where it stands, not copied.

use crate::calls::{self, SHOWN_NOTHING, SHOWN_OTHER};
use crate::Shelf;

impl Shelf {
    /// The unit at a place, as that part of the image. None where the image has another length, there is no such place
    /// or its disk is lost.
    ///
    /// ```
    /// # let sheet = [0x10, 0x42, 0x00, 0x10, 0x00, 0x10, 0x00, 0x10];
    /// # let mut shelf = shqemtuli::Shelf::open(&sheet).unwrap();
    /// let image = [1, 2, 3, 4];
    /// assert_eq!(shelf.show_place(&image, 1, 0), Some(&[3][..]));
    /// shelf.lose(1).unwrap();
    /// assert_eq!(shelf.show_place(&image, 1, 0), None);
    /// ```
    pub fn show_place<'a>(&self, image: &'a [u8], disk: u64, offset: u64) -> Option<&'a [u8]> {
        match calls::show_place(&self.bytes, image, disk, offset) {
            SHOWN_NOTHING => None,
            at => Some(self.unit_at(image, at)),
        }
    }

    /// The unit of an address: that part of the image, or the second buffer, entire, where its disk is lost. A read
    /// fills that buffer; it must be one unit long in any case. None where the image or the buffer has another length
    /// or there is no such address.
    ///
    /// ```
    /// # let sheet = [0x10, 0x42, 0x00, 0x10, 0x00, 0x10, 0x00, 0x10];
    /// # let mut shelf = shqemtuli::Shelf::open(&sheet).unwrap();
    /// let image = [1, 2, 3, 4];
    /// let mut unit = [0];
    /// assert_eq!(shelf.show_address(&image, 0, &unit), Some(&[1][..]));
    /// shelf.lose(0).unwrap();
    /// shelf.read(&image, 0, &mut unit).unwrap();
    /// assert_eq!(shelf.show_address(&image, 0, &unit), Some(&[3][..]));
    /// ```
    pub fn show_address<'a>(
        &self,
        image: &'a [u8],
        address: u64,
        other: &'a [u8],
    ) -> Option<&'a [u8]> {
        match calls::show_address(&self.bytes, image, address, other) {
            SHOWN_NOTHING => None,
            SHOWN_OTHER => Some(other),
            at => Some(self.unit_at(image, at)),
        }
    }

    fn unit_at<'a>(&self, image: &'a [u8], at: u64) -> &'a [u8] {
        // Not by `unit_size`, which would try rule 10 once more.
        &image[at as usize..][..1 << self.u()]
    }
}
