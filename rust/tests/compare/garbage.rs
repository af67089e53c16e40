//! Shelf bytes that no opening gives, or only nearly, in every call, with images of any length.

use crate::call::{compare, Call};
use crate::coding::{decoded, encoded, number, SHELF_BYTES};
use crate::lent::{Buffer, Lent};
use crate::sequences::{right_arguments, some_shelf};
use crate::tally::Tally;
use designs::{catalogue, rounds, seeded, Random};
use model::Shelf;

const PER_ROUND: u64 = 1500;

#[test]
fn garbage_is_refused_alike() {
    let mut random = seeded("garbage");
    let all = catalogue();
    let mut tally = Tally::default();
    for _ in 0..PER_ROUND * rounds() {
        let shelf = some_shelf(&all, &mut random);
        let mut lent = Lent::new(&shelf, &mut random);
        let bytes = garbage(&shelf, &mut random);
        lent.shelf = Buffer::holding(&bytes, &mut random);
        if random.chance(1, 4) {
            let length = random.index(lent.image.length() + 60);
            lent.image.set_length(length);
        }
        for call in Call::ALL {
            // What was right for the shelf before; where the garbage is another shelf, some of it still is.
            right_arguments(call, &shelf, &mut lent, &mut random);
            compare(call, &mut lent, &mut tally);
        }
    }
    tally.print("garbage");
    let (calls, refused) = tally.totals();
    assert!(refused > calls / 2 && refused < calls);
}

/// Shelf bytes with something wrong in them, as a rule.
fn garbage(shelf: &Shelf, random: &mut Random) -> Vec<u8> {
    let mut bytes = encoded(shelf);
    let many = (shelf.b * shelf.k) as usize;
    match random.below(10) {
        0 => return random.bytes(SHELF_BYTES),
        1 => bytes.fill(*random.pick(&[0, 1, 255])),
        2 => bytes.resize(*random.pick(&LENGTHS), 0),
        3 => set_number(&mut bytes, 7, *random.pick(&LOST)),
        4 | 5 => change_number(&mut bytes, random.index(8), random),
        6 => (0..8).for_each(|place| change_number(&mut bytes, place, random)),
        7 => bytes[32 + random.index(2048)] = random.byte(),
        8 => bytes.swap(32 + random.index(many), 32 + random.index(many)),
        _ => set_number(&mut bytes, 7, random.below(shelf.v + 2) as u32),
    }
    bytes
}

/// Lengths that are not that of shelf bytes.
const LENGTHS: [usize; 9] = [0, 1, 31, 32, 2048, 2079, 2081, 2112, 4160];

/// Numbers for the lost disk: a byte holds one less than those up to 256, and of the others it would hold another disk.
const LOST: [u32; 12] = [
    0,
    1,
    2,
    64,
    65,
    255,
    256,
    257,
    258,
    1 << 16,
    1 << 24,
    u32::MAX,
];

fn set_number(bytes: &mut [u8], place: usize, to: u32) {
    bytes[4 * place..][..4].copy_from_slice(&to.to_be_bytes());
}

fn change_number(bytes: &mut [u8], place: usize, random: &mut Random) {
    let old = number(bytes, place) as u32;
    set_number(bytes, place, changed(old, random));
}

/// Another number: near the old one, small, or so large that a product of it does not fit.
fn changed(old: u32, random: &mut Random) -> u32 {
    match random.below(8) {
        0 => old.wrapping_add(1),
        1 => old.wrapping_sub(1),
        2 => old.wrapping_mul(2),
        3 => random.below(70) as u32,
        4 => 1 << 16,
        5 => 1 << random.below(32),
        6 => u32::MAX - random.below(3) as u32,
        _ => random.number() as u32,
    }
}

#[test]
fn the_coding_of_shelf_bytes_is_one_to_one() {
    let mut random = seeded("coding");
    let all = catalogue();
    for _ in 0..100 {
        let mut shelf = some_shelf(&all, &mut random);
        shelf.lost = random.chance(1, 2).then(|| random.byte());
        let bytes = encoded(&shelf);
        assert_eq!(bytes.len(), SHELF_BYTES);
        assert_eq!(decoded(&bytes), Some(shelf));
    }
}
