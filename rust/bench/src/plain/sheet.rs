//! Opening a sheet.

use super::shelf::{balance, has_a_repeat, within_limits, Shelf};

pub fn open(sheet: &[u8]) -> Result<Shelf, u64> {
    let mut shelf = header(sheet)?;
    let many = shelf.b * shelf.k;
    if sheet.len() != 6 + (6 * many + 7) / 8 {
        return Err(4);
    }
    for (place, disk) in shelf.table[..many].iter_mut().enumerate() {
        *disk = six_bits(sheet, 48 + 6 * place);
    }
    let disks = &shelf.table[..many];
    if disks.iter().any(|&disk| disk as usize >= shelf.v) {
        return Err(5);
    }
    if has_a_repeat(shelf.k, disks) {
        return Err(6);
    }
    let filling = 8 * sheet.len() - 48 - 6 * many;
    if sheet[sheet.len() - 1] & ((1 << filling) - 1) != 0 {
        return Err(7);
    }
    (shelf.r, shelf.lambda) = balance(shelf.v, shelf.k, disks)?;
    Ok(shelf)
}

/// Rules 1 to 3; the table is still to be filled.
fn header(sheet: &[u8]) -> Result<Shelf, u64> {
    let bytes = sheet.get(..6).ok_or(1u64)?.iter();
    let header = bytes.fold(0, |sum, &byte| sum << 8 | usize::from(byte));
    if header >> 44 != 1 {
        return Err(2);
    }
    let shelf = Shelf {
        v: header >> 37 & 127,
        k: header >> 32 & 31,
        b: header >> 20 & 4095,
        t: header >> 4 & 65535,
        u: header & 15,
        r: 0,
        lambda: 0,
        table: [0; 2048],
        lost: None,
    };
    match within_limits(shelf.v, shelf.k, shelf.b, shelf.t, shelf.u) {
        true => Ok(shelf),
        false => Err(3),
    }
}

fn six_bits(sheet: &[u8], bit: usize) -> u8 {
    let next = sheet.get(bit / 8 + 1).copied().unwrap_or(0);
    let two = u16::from_be_bytes([sheet[bit / 8], next]);
    (two >> (10 - bit % 8) & 63) as u8
}
