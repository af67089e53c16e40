//! Rebuild and scrub of whole images.

use crate::figures::{hand_on, COPY, ISAL, LIBRARY, PLAIN};
use crate::memory::Bytes;
use crate::sheets::sheet;
use crate::stripes::Stripes;
use crate::time::{contestant, timed, Clock};
use crate::{isal, plain};
use shqemtuli::Shelf;
use std::cell::RefCell;
use std::hint::black_box;

/// Designs of rising k with T and u, so that the images have 45 to 90 million bytes.
const DESIGNS: [(&str, u64, u64); 10] = [
    ("all 2 of 5", 305, 12),
    ("all 3 of 4", 340, 12),
    ("projective plane of order 4", 24, 12),
    ("projective plane of order 7", 3, 12),
    ("(64,16,5) planes", 1, 12),
    ("all 2 of 5", 2440, 9),
    ("all 3 of 4", 2720, 9),
    ("projective plane of order 4", 192, 9),
    ("projective plane of order 7", 24, 9),
    ("(64,16,5) planes", 5, 9),
];

/// The same k with more tuples: the cost of a byte does not rise with b.
const MORE_TUPLES: [(&str, u64, u64); 4] = [
    ("A 170 times", 2, 12),
    ("affine plane of order 8", 3, 12),
    ("(64,8,3)", 1, 12),
    ("A 170 times", 16, 9),
];

/// What stands at the head of a row.
pub fn head(shelf: &Shelf) -> String {
    let numbers = [
        shelf.v(),
        shelf.k(),
        shelf.b(),
        shelf.full_tables(),
        shelf.u(),
    ];
    numbers.map(|number| number.to_string()).join("|")
}

pub fn rebuild(clock: &Clock) {
    for (name, t, u) in DESIGNS.into_iter().chain(MORE_TUPLES) {
        let sheet = sheet(name, t, u);
        let mut shelf = Shelf::open(&sheet).unwrap();
        let mut plain = plain::sheet::open(&sheet).unwrap();
        plain.lost = Some(1);
        rebuild_of(clock, &mut shelf, &plain);
    }
}

fn rebuild_of(clock: &Clock, shelf: &mut Shelf, plain: &plain::Shelf) {
    let lost = Stripes::of_lost(plain);
    let mut image = Bytes::random(plain.image());
    let mut buffer = Bytes::zeros(plain.unit());
    let by_isal = isal::generates(plain.k);
    same_images(shelf, plain, by_isal.then_some(&lost), &image);
    // All work on the same image: a rebuild that is repeated writes the same bytes.
    let image = RefCell::new(&mut *image);
    let times = clock.best([
        contestant(|| {
            shelf.lose(1).unwrap();
            let image = &mut image.borrow_mut();
            timed(|| shelf.rebuild(image).unwrap())
        }),
        contestant(|| {
            let image = &mut image.borrow_mut();
            timed(|| plain.rebuild_by_units(image).unwrap())
        }),
        contestant(|| {
            let image = &mut image.borrow_mut();
            timed(|| lost.restore(image))
        })
        .filter(|_| by_isal),
        contestant(|| {
            let image = &image.borrow();
            timed(|| lost.copy_but_last(image, black_box(&mut buffer)))
        }),
    ]);
    let names = [LIBRARY, PLAIN, ISAL, COPY];
    hand_on("rebuild", &head(shelf), lost.bytes_but_last(), names, times);
}

/// The library, plain Rust and ISA-L give the same image.
pub fn same_images(shelf: &mut Shelf, plain: &plain::Shelf, isal: Option<&Stripes>, image: &[u8]) {
    let mut one = image.to_vec();
    shelf.lose(1).unwrap();
    let counts = shelf.rebuild(&mut one).unwrap();
    let mut other = image.to_vec();
    assert_eq!(plain.rebuild_by_units(&mut other), Ok(counts));
    assert!(one == other, "the images differ");
    if let Some(lost) = isal {
        other.copy_from_slice(image);
        lost.restore(&mut other);
        assert!(one == other, "ISA-L's image differs");
    }
}

pub fn scrub(clock: &Clock) {
    for (name, t, u) in DESIGNS {
        let sheet = sheet(name, t, u);
        let shelf = Shelf::open(&sheet).unwrap();
        scrub_of(clock, &shelf, &plain::sheet::open(&sheet).unwrap());
    }
}

fn scrub_of(clock: &Clock, shelf: &Shelf, plain: &plain::Shelf) {
    let all = Stripes::all(plain);
    let mut image = Bytes::random(plain.image());
    let mut buffer = Bytes::zeros(plain.unit());
    // One wrong stripe, and then none.
    all.make_right(&mut image);
    for wrong in [1, 0] {
        image[0] ^= 1;
        assert_eq!(shelf.scrub(&image), Ok(wrong));
        assert_eq!(plain.scrub(&image), Ok(wrong));
        assert!(!isal::checks() || all.wrong(&image) == wrong);
    }
    let times = clock.best([
        contestant(|| timed(|| shelf.scrub(&image).unwrap())),
        contestant(|| timed(|| plain.scrub(&image).unwrap())),
        contestant(|| timed(|| all.wrong(&image))).filter(|_| isal::checks()),
        contestant(|| timed(|| all.copy_all(&image, black_box(&mut buffer)))),
    ]);
    let names = [LIBRARY, PLAIN, ISAL, COPY];
    hand_on("scrub", &head(shelf), shelf.image_size(), names, times);
}
