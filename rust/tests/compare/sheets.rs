//! Sheets, valid and damaged, and what can be asked of an opened one without an image.

use crate::call::{compare, Call};
use crate::coding::SHELF_BYTES;
use crate::lent::{Buffer, Lent};
use crate::tally::Tally;
use designs::{catalogue, damaged, rounds, seeded, Random, Sheet};
use model::Shelf;

const PER_ROUND: u64 = 1000;

#[test]
fn sheets_open_alike() {
    let mut random = seeded("sheets");
    let all = catalogue();
    let mut tally = Tally::default();
    let mut lent = Lent::new(&Shelf::empty(), &mut random);
    for _ in 0..PER_ROUND * rounds() {
        let design = random.pick(&all).shuffled(&mut random);
        let sheet = Sheet::new(&design, some_t(&mut random), random.below(13));
        for number in 0..10 {
            open(
                &mut lent,
                &damaged(&sheet, &[number], &mut random),
                &mut tally,
                &mut random,
            );
        }
        let two = [random.below(10), random.below(10)];
        open(
            &mut lent,
            &damaged(&sheet, &two, &mut random),
            &mut tally,
            &mut random,
        );
        open(
            &mut lent,
            &flipped(&sheet.bytes(), &mut random),
            &mut tally,
            &mut random,
        );
    }
    tally.expect(Call::Open, &[0, 1, 2, 3, 4, 5, 6, 7, 8, 9, 13]);
    tally.print("sheets");
}

fn some_t(random: &mut Random) -> u64 {
    match random.below(4) {
        0 => 1,
        1 => 65535,
        2 => 1 + random.below(10),
        _ => 1 + random.below(65535),
    }
}

/// The sheet with one bit changed.
fn flipped(sheet: &[u8], random: &mut Random) -> Vec<u8> {
    let mut sheet = sheet.to_vec();
    let at = random.index(sheet.len());
    sheet[at] ^= 1 << random.below(8);
    sheet
}

/// Opens the sheet, and asks of an accepted one all that takes no image.
fn open(lent: &mut Lent, sheet: &[u8], tally: &mut Tally, random: &mut Random) {
    lent.buffer = Buffer::holding(sheet, random);
    let length = if random.chance(1, 16) {
        *random.pick(&[0, 1, 32, 2048, 2079, 2081, 4160])
    } else {
        SHELF_BYTES
    };
    lent.out = Buffer::random(length, random);
    compare(Call::Open, lent, tally);
    let (number, shelf) = model::open(sheet);
    if number == 0 && length == SHELF_BYTES {
        lent.shelf = lent.out.clone();
        ask(lent, &shelf, tally, random);
    }
}

fn ask(lent: &mut Lent, shelf: &Shelf, tally: &mut Tally, random: &mut Random) {
    let sizes = [
        Call::SheetLength,
        Call::ImageSize,
        Call::UnitSize,
        Call::Stripes,
        Call::Addresses,
        Call::Offsets,
    ];
    for call in sizes {
        compare(call, lent, tally);
    }
    let sheet = model::sheet_length(shelf) as usize;
    for length in [sheet, sheet - 1, sheet + random.index(40)] {
        lent.out = Buffer::random(length, random);
        compare(Call::WriteBack, lent, tally);
    }
    let end = shelf.addresses();
    lent.out = Buffer::random(16, random);
    for address in [0, random.below(end), random.below(end), end - 1, end] {
        lent.numbers = [address, 0];
        compare(Call::Place, lent, tally);
    }
    lent.out = Buffer::random(12, random);
    for offset in [0, random.below(shelf.offsets()), shelf.offsets() - 1] {
        lent.numbers = [random.below(shelf.v), offset];
        compare(Call::LookUp, lent, tally);
    }
    let many = random.index(20);
    lent.out = Buffer::random(16 * many, random);
    for first in [0, random.below(end), end.saturating_sub(many as u64)] {
        lent.numbers = [first, 0];
        compare(Call::Run, lent, tally);
    }
}
