//! The shelf bytes of the library's boundary, from and to the model's shelf, and rows of numbers.

use model::Shelf;

pub const SHELF_BYTES: usize = 2080;

/// The lost disk stands in the shelf bytes as one more than its number, and none as 0.
const MOST_LOST: u64 = 256;

/// Each number as 4 bytes, most significant first.
pub fn numbers(row: &[u64]) -> Vec<u8> {
    let bytes = |&number: &u64| u32::try_from(number).unwrap().to_be_bytes();
    row.iter().flat_map(bytes).collect()
}

/// The number at this place of a row.
pub fn number(row: &[u8], place: usize) -> u64 {
    let bytes = row[4 * place..][..4].try_into().unwrap();
    u64::from(u32::from_be_bytes(bytes))
}

pub fn encoded(shelf: &Shelf) -> Vec<u8> {
    let mut bytes = numbers(&[
        shelf.v,
        shelf.k,
        shelf.b,
        shelf.t,
        shelf.u,
        shelf.r,
        shelf.lambda,
        shelf.lost.map_or(0, |disk| u64::from(disk) + 1),
    ]);
    bytes.extend(shelf.table);
    bytes
}

/// None where the bytes are those of no value at all. What they hold need not be a shelf.
pub fn decoded(bytes: &[u8]) -> Option<Shelf> {
    if bytes.len() != SHELF_BYTES || number(bytes, 7) > MOST_LOST {
        return None;
    }
    let number = |place: usize| number(bytes, place);
    Some(Shelf {
        v: number(0),
        k: number(1),
        b: number(2),
        t: number(3),
        u: number(4),
        r: number(5),
        lambda: number(6),
        table: bytes[32..].try_into().unwrap(),
        lost: number(7).checked_sub(1).map(|disk| disk as u8),
    })
}
