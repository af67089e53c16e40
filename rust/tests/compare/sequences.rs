//! Random sequences of calls on one shelf and one image, about half of them refused, the lost disk scribbled on between.

use crate::call::{compare, Call};
use crate::coding::{decoded, SHELF_BYTES};
use crate::lent::{Buffer, Lent};
use crate::tally::Tally;
use designs::{catalogue, rounds, seeded, Design, Random, Sheet};
use model::Shelf;

const SHELVES_PER_ROUND: u64 = 250;
const CALLS: u64 = 400;

#[test]
fn sequences_run_alike() {
    let mut random = seeded("sequences");
    let all = catalogue();
    let mut tally = Tally::default();
    for _ in 0..SHELVES_PER_ROUND * rounds() {
        let shelf = some_shelf(&all, &mut random);
        let mut lent = Lent::new(&shelf, &mut random);
        if random.chance(1, 2) {
            lent.image.bytes_mut().fill(0);
        }
        for _ in 0..CALLS {
            one_call(&mut lent, &mut tally, &mut random);
            scribble(&mut lent, &mut random);
        }
    }
    tally.print("sequences");
    tally.expect_all();
    let (calls, refused) = tally.totals();
    let share = 100 * refused / calls;
    assert!((40..=60).contains(&share), "{share} in 100 were refused");
}

/// A shelf of the catalogue whose image is not too large to be compared after each call.
pub fn some_shelf(all: &[Design], random: &mut Random) -> Shelf {
    loop {
        let design = random.pick(all).shuffled(random);
        let sheet = Sheet::new(&design, 1 + random.below(4), random.below(13));
        let (number, shelf) = model::open(&sheet.bytes());
        assert_eq!(number, 0, "{}", design.name);
        let limit = if random.chance(1, 20) {
            1 << 19
        } else {
            1 << 15
        };
        if shelf.image_size() <= limit {
            return shelf;
        }
    }
}

/// Any call but opening, with arguments of which in about half of the cases one or two are wrong.
fn one_call(lent: &mut Lent, tally: &mut Tally, random: &mut Random) {
    let call = some_call(random);
    let shelf = decoded(lent.shelf.bytes()).expect("the sequence keeps its shelf");
    right_arguments(call, &shelf, lent, random);
    let kept = (lent.shelf.clone(), lent.image.length());
    if random.chance(60, 100) {
        spoil(&shelf, lent, random);
        if random.chance(1, 4) {
            spoil(&shelf, lent, random);
        }
    }
    let spoiled = lent.shelf != kept.0;
    compare(call, lent, tally);
    lent.image.set_length(kept.1);
    if spoiled {
        lent.shelf = kept.0;
    }
}

/// Writes and reads often, the calls that take time over all stripes seldom.
fn some_call(random: &mut Random) -> Call {
    match random.below(100) {
        0..=24 => Call::Write,
        25..=36 => Call::WriteStripe,
        37..=56 => Call::Read,
        57..=61 => Call::ShowAddress,
        62..=65 => Call::ShowPlace,
        66..=69 => Call::Place,
        70..=73 => Call::LookUp,
        74..=77 => Call::Run,
        78..=80 => Call::WriteBack,
        81..=85 => Call::Lose,
        86..=90 => Call::Rebuild,
        91..=93 => Call::Scrub,
        94 => Call::Blank,
        _ => *random.pick(&Call::ALL[2..8]),
    }
}

/// Arguments with which the call is accepted unless the lost disk forbids it.
pub fn right_arguments(call: Call, shelf: &Shelf, lent: &mut Lent, random: &mut Random) {
    let unit = shelf.unit_size() as usize;
    let data = (shelf.k - 1) as usize;
    let many = random.index(9);
    let (number, buffer, out) = match call {
        Call::Write | Call::Read => (shelf.addresses(), unit, 8),
        Call::WriteStripe => (shelf.stripes(), data * unit, 8),
        Call::ShowAddress => (shelf.addresses(), unit, 0),
        Call::Place => (shelf.addresses(), 0, 16),
        Call::LookUp => (shelf.v, 0, 12),
        Call::Run => (shelf.addresses() + 1, 0, 16 * many),
        Call::WriteBack => (1, 0, model::sheet_length(shelf) as usize + many),
        Call::Rebuild => (1, 0, 256),
        Call::Scrub => (1, 0, 4),
        _ => (shelf.v, 0, 0),
    };
    lent.buffer = Buffer::random(buffer, random);
    lent.out = Buffer::random(out, random);
    lent.numbers = [random.below(number), random.below(shelf.offsets())];
    if call == Call::Run {
        let end = shelf.addresses().saturating_sub(many as u64) + 1;
        lent.numbers[0] = random.below(end);
    }
}

/// Makes one of the things lent wrong.
fn spoil(shelf: &Shelf, lent: &mut Lent, random: &mut Random) {
    match random.below(12) {
        0 => {
            let at = random.index(SHELF_BYTES);
            if let Some(byte) = lent.shelf.bytes_mut().get_mut(at) {
                *byte ^= 1 << random.below(8);
            }
        }
        1 => {
            let length = other_length(lent.shelf.length(), random);
            lent.shelf.set_length(length);
        }
        2 | 3 => {
            let length = other_length(lent.image.length(), random);
            lent.image.set_length(length);
        }
        4 | 5 => {
            let length = other_length(lent.buffer.length(), random);
            lent.buffer = Buffer::random(length, random);
        }
        6 | 7 => {
            let length = other_length(lent.out.length(), random);
            lent.out = Buffer::random(length, random);
        }
        8 => lent.numbers[1] = too_large(shelf, random),
        _ => lent.numbers[0] = too_large(shelf, random),
    }
}

/// Another length, not more than 32 bytes longer.
fn other_length(length: usize, random: &mut Random) -> usize {
    match random.below(5) {
        0 => length + 1,
        1 => length.saturating_sub(1),
        2 => length + 1 + random.index(32),
        3 => 0,
        _ => random.index(length + 1),
    }
}

/// A number that is too large for something.
fn too_large(shelf: &Shelf, random: &mut Random) -> u64 {
    let ends = [
        shelf.v,
        shelf.offsets(),
        shelf.stripes(),
        shelf.addresses(),
        64,
        256,
        1 << 32,
        1 << 63,
        u64::MAX - 1,
        u64::MAX,
    ];
    match random.below(3) {
        0 => random.number(),
        1 => random.pick(&ends).saturating_add(random.below(3)),
        _ => *random.pick(&ends),
    }
}

/// Puts any bytes on the lost disk, now and then.
fn scribble(lent: &mut Lent, random: &mut Random) {
    let shelf = decoded(lent.shelf.bytes()).expect("the sequence keeps its shelf");
    if let (Some(disk), true) = (shelf.lost, random.chance(1, 3)) {
        let region = lent.image.length() / shelf.v as usize;
        let noise = random.byte();
        for byte in &mut lent.image.bytes_mut()[region * disk as usize..][..region] {
            *byte = byte.rotate_left(3) ^ noise;
        }
    }
}
