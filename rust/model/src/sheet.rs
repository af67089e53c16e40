//! Reading and writing the sheet: its fields are packed most significant bit first.

use crate::balance;
use crate::shelf::{within_limits, Shelf};

/// The number, 0 where the sheet is accepted, and the shelf; the empty shelf where it is refused.
pub fn open(sheet: &[u8]) -> (u64, Shelf) {
    match opened(sheet) {
        Ok(shelf) => (0, shelf),
        Err(number) => (number, Shelf::empty()),
    }
}

/// The header's numbers.
struct Header {
    v: u64,
    k: u64,
    b: u64,
    t: u64,
    u: u64,
}

/// Rules 1 to 3.
fn header(sheet: &[u8]) -> Result<Header, u64> {
    if sheet.len() < 6 {
        return Err(1);
    }
    if field(sheet, 0, 4) != 1 {
        return Err(2);
    }
    let v = field(sheet, 4, 7);
    let k = field(sheet, 11, 5);
    let b = field(sheet, 16, 12);
    let t = field(sheet, 28, 16);
    let u = field(sheet, 44, 4);
    if !within_limits(v, k, b, t, u) {
        return Err(3);
    }
    Ok(Header { v, k, b, t, u })
}

/// Each rule over the whole sheet before the next.
fn opened(sheet: &[u8]) -> Result<Shelf, u64> {
    let Header { v, k, b, t, u } = header(sheet)?;
    let many = b * k;
    if sheet.len() as u64 != 6 + (6 * many + 7) / 8 {
        return Err(4);
    }
    let mut shelf = Shelf::empty();
    (shelf.v, shelf.k, shelf.b, shelf.t, shelf.u) = (v, k, b, t, u);
    for place in 0..many {
        shelf.table[place as usize] = field(sheet, 48 + 6 * place, 6) as u8;
    }
    let disks = &shelf.table[..many as usize];
    if disks.iter().any(|&disk| u64::from(disk) >= v) {
        return Err(5);
    }
    let tuples = || disks.chunks(k as usize);
    if tuples().any(balance::has_a_disk_twice) {
        return Err(6);
    }
    if (48 + 6 * many..8 * sheet.len() as u64).any(|place| bit(sheet, place) != 0) {
        return Err(7);
    }
    shelf.r = balance::times_of_each_disk(v, tuples()).ok_or(8u64)?;
    shelf.lambda = balance::times_of_each_pair(v, tuples()).ok_or(9u64)?;
    Ok(shelf)
}

/// The length in bytes of the sheet of a shelf.
pub fn sheet_length(shelf: &Shelf) -> u64 {
    6 + (6 * shelf.b * shelf.k + 7) / 8
}

/// Writes the sheet into the first bytes of the buffer and gives its length.
pub fn write_back(shelf: &Shelf, buffer: &mut [u8]) -> Result<u64, u64> {
    if !shelf.is_shelf() {
        return Err(10);
    }
    let length = sheet_length(shelf);
    if (buffer.len() as u64) < length {
        return Err(13);
    }
    let sheet = &mut buffer[..length as usize];
    sheet.fill(0);
    put(sheet, 0, 4, 1);
    put(sheet, 4, 7, shelf.v);
    put(sheet, 11, 5, shelf.k);
    put(sheet, 16, 12, shelf.b);
    put(sheet, 28, 16, shelf.t);
    put(sheet, 44, 4, shelf.u);
    for place in 0..shelf.b * shelf.k {
        let disk = shelf.table[place as usize];
        put(sheet, 48 + 6 * place, 6, u64::from(disk));
    }
    Ok(length)
}

fn bit(bytes: &[u8], place: u64) -> u64 {
    let byte = bytes[(place / 8) as usize];
    u64::from(byte >> (7 - place % 8) & 1)
}

fn field(bytes: &[u8], from: u64, width: u64) -> u64 {
    (from..from + width).fold(0, |value, place| 2 * value + bit(bytes, place))
}

/// Writes a field over bits that are zero.
fn put(bytes: &mut [u8], from: u64, width: u64, value: u64) {
    for place in 0..width {
        let bit = (value >> (width - 1 - place) & 1) as u8;
        let at = from + place;
        bytes[(at / 8) as usize] |= bit << (7 - at % 8);
    }
}
