//! Each function of the archive as a safe function on slices. All bytes and all numbers are safe in all of them.
//!
//! Every call gives document 01's number, 0 for accepted, unless it says otherwise. These are for a host that keeps its
//! shelf bytes itself; [`crate::Shelf`] is the comfortable way.
//!
//! Numbers in bytes have 4 bytes each, most significant first. A buffer for an answer has exactly the answer's length: with
//! another length the call gives 13 before it looks at anything, and alters nothing.
//!
//! Every `unsafe` here is sound for one reason: each pointer goes with the length of its own slice, no two slices that
//! are lent at once overlap, and the archive's functions ask nothing else of their callers.

use crate::raw;

/// The length of the shelf bytes: the numbers v k b T u r lambda; the lost disk plus 1, or 0 where none is lost; the table
/// of 2,048 disk numbers, a byte each. Other bytes and other lengths are no shelf: 10.
pub const SHELF_BYTES: usize = 2080;

/// Disk, offset, parity disk, parity offset.
pub const PLACE_BYTES: usize = 16;

/// Stripe, address, and 0 for data or 1 for parity; the address of a parity is 0.
pub const FOUND_BYTES: usize = 12;

/// Units read, units written; zeros where the call is refused.
pub const COST_BYTES: usize = 8;

/// Units read from each of 64 disks; zeros where the call is refused.
pub const COUNTS_BYTES: usize = 256;

/// The number of wrong stripes; zero where the call is refused.
pub const WRONG_BYTES: usize = 4;

/// What a refused show gives.
pub const SHOWN_NOTHING: u64 = u64::MAX;

/// What showing an address gives where the second buffer is to be shown.
pub const SHOWN_OTHER: u64 = u64::MAX - 1;

/// Opens a sheet into [`SHELF_BYTES`], else 13; then 1 to 9. Refused, it alters nothing.
pub fn open(sheet: &[u8], shelf: &mut [u8]) -> u64 {
    unsafe {
        raw::shqemtuli_open(
            sheet.as_ptr(),
            sheet.len() as u64,
            shelf.as_mut_ptr(),
            shelf.len() as u64,
        )
    }
}

/// Writes the sheet into the first bytes of the buffer: 10, 13. The bytes after it keep their values.
pub fn write_back(shelf: &[u8], sheet: &mut [u8]) -> u64 {
    unsafe {
        raw::shqemtuli_write_back(
            shelf.as_ptr(),
            shelf.len() as u64,
            sheet.as_mut_ptr(),
            sheet.len() as u64,
        )
    }
}

/// The bytes of the sheet; 0 where it is no shelf.
pub fn sheet_length(shelf: &[u8]) -> u64 {
    unsafe { raw::shqemtuli_sheet_length(shelf.as_ptr(), shelf.len() as u64) }
}

/// The bytes of the image; 0 where it is no shelf.
pub fn image_size(shelf: &[u8]) -> u64 {
    unsafe { raw::shqemtuli_image_size(shelf.as_ptr(), shelf.len() as u64) }
}

/// The bytes of a unit; 0 where it is no shelf.
pub fn unit_size(shelf: &[u8]) -> u64 {
    unsafe { raw::shqemtuli_unit_size(shelf.as_ptr(), shelf.len() as u64) }
}

/// The stripes; 0 where it is no shelf.
pub fn stripes(shelf: &[u8]) -> u64 {
    unsafe { raw::shqemtuli_stripes(shelf.as_ptr(), shelf.len() as u64) }
}

/// The addresses; 0 where it is no shelf.
pub fn addresses(shelf: &[u8]) -> u64 {
    unsafe { raw::shqemtuli_addresses(shelf.as_ptr(), shelf.len() as u64) }
}

/// The units on each disk; 0 where it is no shelf.
pub fn offsets(shelf: &[u8]) -> u64 {
    unsafe { raw::shqemtuli_offsets(shelf.as_ptr(), shelf.len() as u64) }
}

/// Places an address, into [`PLACE_BYTES`], else 13; then 10, 12. Refused, it alters nothing.
pub fn place(shelf: &[u8], address: u64, place: &mut [u8]) -> u64 {
    unsafe {
        raw::shqemtuli_place(
            shelf.as_ptr(),
            shelf.len() as u64,
            address,
            place.as_mut_ptr(),
            place.len() as u64,
        )
    }
}

/// Looks a place up, into [`FOUND_BYTES`], else 13; then 10, 12. Refused, it alters nothing.
pub fn look_up(shelf: &[u8], disk: u64, offset: u64, found: &mut [u8]) -> u64 {
    unsafe {
        raw::shqemtuli_look_up(
            shelf.as_ptr(),
            shelf.len() as u64,
            disk,
            offset,
            found.as_mut_ptr(),
            found.len() as u64,
        )
    }
}

/// Places consecutive addresses, into a list of [`PLACE_BYTES`] for each, else 13; then 10, 12. Refused, it alters nothing.
pub fn run(shelf: &[u8], first: u64, list: &mut [u8]) -> u64 {
    unsafe {
        raw::shqemtuli_run(
            shelf.as_ptr(),
            shelf.len() as u64,
            first,
            list.as_mut_ptr(),
            list.len() as u64,
        )
    }
}

/// Makes every image byte zero: 10, 11, 14.
pub fn blank(shelf: &[u8], image: &mut [u8]) -> u64 {
    unsafe {
        raw::shqemtuli_blank(
            shelf.as_ptr(),
            shelf.len() as u64,
            image.as_mut_ptr(),
            image.len() as u64,
        )
    }
}

/// Writes a unit, the cost into [`COST_BYTES`], else 13; then 10, 11, 12, 13.
pub fn write(shelf: &[u8], image: &mut [u8], address: u64, unit: &[u8], cost: &mut [u8]) -> u64 {
    unsafe {
        raw::shqemtuli_write(
            shelf.as_ptr(),
            shelf.len() as u64,
            image.as_mut_ptr(),
            image.len() as u64,
            address,
            unit.as_ptr(),
            unit.len() as u64,
            cost.as_mut_ptr(),
            cost.len() as u64,
        )
    }
}

/// Writes the units of a stripe, the cost into [`COST_BYTES`], else 13; then 10, 11, 12, 13.
pub fn write_stripe(
    shelf: &[u8],
    image: &mut [u8],
    stripe: u64,
    buffer: &[u8],
    cost: &mut [u8],
) -> u64 {
    unsafe {
        raw::shqemtuli_write_stripe(
            shelf.as_ptr(),
            shelf.len() as u64,
            image.as_mut_ptr(),
            image.len() as u64,
            stripe,
            buffer.as_ptr(),
            buffer.len() as u64,
            cost.as_mut_ptr(),
            cost.len() as u64,
        )
    }
}

/// Reads a unit, the cost into [`COST_BYTES`], else 13; then 10, 11, 12, 13.
pub fn read(shelf: &[u8], image: &[u8], address: u64, buffer: &mut [u8], cost: &mut [u8]) -> u64 {
    unsafe {
        raw::shqemtuli_read(
            shelf.as_ptr(),
            shelf.len() as u64,
            image.as_ptr(),
            image.len() as u64,
            address,
            buffer.as_mut_ptr(),
            buffer.len() as u64,
            cost.as_mut_ptr(),
            cost.len() as u64,
        )
    }
}

/// Marks a disk as lost: 10, 12, 14. Refused, it leaves the shelf bytes.
pub fn lose(shelf: &mut [u8], disk: u64) -> u64 {
    unsafe { raw::shqemtuli_lose(shelf.as_mut_ptr(), shelf.len() as u64, disk) }
}

/// Rebuilds the lost disk, the counts into [`COUNTS_BYTES`], else 13; then 10, 11, 15. Refused, it leaves the shelf bytes.
pub fn rebuild(shelf: &mut [u8], image: &mut [u8], counts: &mut [u8]) -> u64 {
    unsafe {
        raw::shqemtuli_rebuild(
            shelf.as_mut_ptr(),
            shelf.len() as u64,
            image.as_mut_ptr(),
            image.len() as u64,
            counts.as_mut_ptr(),
            counts.len() as u64,
        )
    }
}

/// Counts the wrong stripes, into [`WRONG_BYTES`], else 13; then 10, 11, 14.
pub fn scrub(shelf: &[u8], image: &[u8], wrong: &mut [u8]) -> u64 {
    unsafe {
        raw::shqemtuli_scrub(
            shelf.as_ptr(),
            shelf.len() as u64,
            image.as_ptr(),
            image.len() as u64,
            wrong.as_mut_ptr(),
            wrong.len() as u64,
        )
    }
}

/// The byte of the image at which the unit at a place begins, or [`SHOWN_NOTHING`].
pub fn show_place(shelf: &[u8], image: &[u8], disk: u64, offset: u64) -> u64 {
    unsafe {
        raw::shqemtuli_show_place(
            shelf.as_ptr(),
            shelf.len() as u64,
            image.as_ptr(),
            image.len() as u64,
            disk,
            offset,
        )
    }
}

/// The byte of the image at which the unit of an address begins, [`SHOWN_OTHER`] or [`SHOWN_NOTHING`].
pub fn show_address(shelf: &[u8], image: &[u8], address: u64, other: &[u8]) -> u64 {
    unsafe {
        raw::shqemtuli_show_address(
            shelf.as_ptr(),
            shelf.len() as u64,
            image.as_ptr(),
            image.len() as u64,
            address,
            other.as_ptr(),
            other.len() as u64,
        )
    }
}
