//! The model held against itself: where it says one thing in two ways, both are the same.

use designs::{balance, catalogue, damaged, rounds, seeded, Design, Random, Sheet};
use model::*;

/// A shelf of the design, shuffled.
fn some_shelf(design: &Design, t: u64, u: u64, random: &mut Random) -> Shelf {
    let (number, shelf) = open(&Sheet::new(&design.shuffled(random), t, u).bytes());
    assert_eq!(number, 0, "{}", design.name);
    shelf
}

#[test]
fn opening_counts_what_the_catalogue_counts() {
    let mut random = seeded("model: opening");
    for design in catalogue() {
        let shelf = some_shelf(
            &design,
            1 + random.below(65535),
            random.below(13),
            &mut random,
        );
        let counted = (shelf.r as usize, shelf.lambda as usize);
        assert_eq!(Some(counted), balance(&design), "{}", design.name);
    }
}

#[test]
fn writing_back_undoes_opening() {
    let mut random = seeded("model: writing back");
    for design in catalogue() {
        let sheet = Sheet::new(&design.shuffled(&mut random), 1 + random.below(65535), 3).bytes();
        let mut buffer = vec![0xEE; sheet.len()];
        let written = write_back(&open(&sheet).1, &mut buffer);
        assert_eq!(written, Ok(sheet.len() as u64));
        assert_eq!(buffer, sheet);
    }
}

#[test]
fn placing_and_the_whole_layout_agree() {
    let mut random = seeded("model: placing");
    for design in catalogue() {
        let shelf = some_shelf(&design, 1 + random.below(2), 0, &mut random);
        let step = 1 + shelf.stripes() / 200;
        for_every_stripe(&shelf, |number, stripe| {
            if number % step != 0 {
                return;
            }
            for (j, &data) in stripe.data.iter().enumerate() {
                let address = number * (shelf.k - 1) + j as u64;
                let parity = stripe.parity;
                assert_eq!(place(&shelf, address), Ok(Record { data, parity }));
                let found = look_up(&shelf, data.disk, data.offset).unwrap();
                assert_eq!((found.stripe, found.address), (number, Some(address)));
            }
            let found = look_up(&shelf, stripe.parity.disk, stripe.parity.offset).unwrap();
            assert_eq!((found.stripe, found.address), (number, None));
        });
    }
}

#[test]
fn the_layout_fills_every_place_once() {
    let mut random = seeded("model: places");
    for design in catalogue() {
        let shelf = some_shelf(&design, 1, 0, &mut random);
        let mut times = vec![0; shelf.image_size() as usize];
        for_every_stripe(&shelf, |_, stripe| {
            for place in [&stripe.parity].into_iter().chain(&stripe.data) {
                times[(place.disk * shelf.offsets() + place.offset) as usize] += 1;
            }
        });
        assert!(times.iter().all(|&n| n == 1), "{}", design.name);
    }
}

#[test]
fn rebuild_counts_are_as_expected() {
    let mut random = seeded("model: counts");
    for design in catalogue() {
        let mut shelf = some_shelf(&design, 1 + random.below(2), 0, &mut random);
        let mut image = random.bytes(shelf.image_size() as usize);
        let lost = random.below(shelf.v);
        lose(&mut shelf, lost).unwrap();
        let counts = rebuild(&mut shelf, &mut image).unwrap();
        for disk in 0..64 {
            let other = disk < shelf.v && disk != lost;
            let expected = if other {
                shelf.t * shelf.k * shelf.lambda
            } else {
                0
            };
            assert_eq!(counts[disk as usize], expected, "{}", design.name);
        }
    }
}

/// Rule 10 in document 01's own words: some accepted opening gives the value, a lost disk below v apart.
fn can_be_given(shelf: &Shelf) -> bool {
    let fits = shelf.v < 128 && shelf.k < 32 && shelf.b < 4096 && shelf.t < 65536 && shelf.u < 16;
    let many = shelf.b.saturating_mul(shelf.k);
    if !fits || many > 2048 || shelf.table.iter().any(|&disk| disk >= 64) {
        return false;
    }
    let sheet = Sheet {
        edition: 1,
        v: shelf.v,
        k: shelf.k,
        b: shelf.b,
        t: shelf.t,
        u: shelf.u,
        disks: shelf.table[..many as usize].to_vec(),
        filling: 0,
        surplus: Vec::new(),
    };
    let (number, mut given) = open(&sheet.bytes());
    given.lost = shelf.lost.filter(|&disk| u64::from(disk) < given.v);
    number == 0 && given == *shelf
}

#[test]
fn rule_10_is_what_an_opening_can_give() {
    let mut random = seeded("model: rule 10");
    let all = catalogue();
    let (mut yes, mut no) = (0, 0);
    for _ in 0..200 * rounds() {
        let mut shelf = some_shelf(random.pick(&all), 1 + random.below(3), 0, &mut random);
        change(&mut shelf, &mut random);
        assert_eq!(shelf.is_shelf(), can_be_given(&shelf), "{shelf:?}");
        *(if shelf.is_shelf() { &mut yes } else { &mut no }) += 1;
    }
    assert!(yes > 0 && no > 0);
}

/// Changes something that rule 10 looks at, or nothing.
fn change(shelf: &mut Shelf, random: &mut Random) {
    let near = |number: u64, random: &mut Random| match random.below(4) {
        0 => number + 1,
        1 => number.wrapping_sub(1),
        2 => random.below(70),
        _ => random.number(),
    };
    let many = (shelf.b * shelf.k) as usize;
    match random.below(12) {
        0 => shelf.v = near(shelf.v, random),
        1 => shelf.k = near(shelf.k, random),
        2 => shelf.b = near(shelf.b, random),
        3 => shelf.t = near(shelf.t, random),
        4 => shelf.u = near(shelf.u, random),
        5 => shelf.r = near(shelf.r, random),
        6 => shelf.lambda = near(shelf.lambda, random),
        7 => shelf.lost = Some(random.below(70) as u8),
        8 => shelf.table[random.index(2048)] = random.byte(),
        9 => shelf.table[random.index(many)] = random.below(shelf.v) as u8,
        10 => shelf.table.swap(random.index(many), random.index(many)),
        _ => {}
    }
}

#[test]
fn damaged_sheets_reach_every_number() {
    let mut random = seeded("model: damage");
    let all = catalogue();
    let mut reached = [0; 10];
    for _ in 0..200 * rounds() {
        let design = random.pick(&all).shuffled(&mut random);
        let sheet = Sheet::new(&design, 1 + random.below(65535), random.below(13));
        for number in 0..10 {
            let bytes = damaged(&sheet, &[number], &mut random);
            let given = open(&bytes).0;
            // Where the design leaves no room for the damage, the sheet is accepted.
            assert!(given == number || given == 0);
            reached[given as usize] += 1;
        }
    }
    assert!(reached.iter().all(|&times| times > 10), "{reached:?}");
}
