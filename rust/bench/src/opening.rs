//! Opening a sheet, and rule 10, which every other call begins with: the largest b that b·k allows, and the smallest shelf.

use crate::calls::calls;
use crate::figures::{hand_on, LIBRARY, PLAIN};
use crate::plain;
use crate::sheets::design;
use crate::time::{contestant, Clock};
use designs::Sheet;
use shqemtuli::Shelf;
use std::hint::black_box;

/// How many calls are timed together.
const CALLS: usize = 50;

/// Designs of the catalogue, and how many times over.
const DESIGNS: [(&str, usize); 10] = [
    ("all 3 of 4", 1),
    ("0 1, 1,024 times", 1),
    ("all 2 of 45", 1),
    ("(63,3,1) lines", 1),
    ("(7,3,97)", 1),
    ("projective plane of order 3", 39),
    ("(57,8,1) cyclic", 4),
    ("(31,15,7) solids", 4),
    ("(32,16,15) hyperplanes", 2),
    ("all 16 of 16, 128 times, turned", 1),
];

pub fn measure(clock: &Clock) {
    for (name, times) in DESIGNS {
        let design = design(name, times);
        let sheet = &Sheet::new(&design, 1, 12).bytes();
        let shelf = &Shelf::open(sheet).unwrap();
        let plain = &plain::sheet::open(sheet).unwrap();
        let head = |call: &str| format!("{}|{}|{}|{call}", plain.v, plain.k, plain.b);
        let names = [LIBRARY, PLAIN];
        let opening = clock.best([
            contestant(|| calls(0..CALLS, |_| Shelf::open(black_box(sheet)).unwrap())),
            contestant(|| calls(0..CALLS, |_| plain::sheet::open(black_box(sheet)).unwrap())),
        ]);
        hand_on("opening", &head("opening"), CALLS as u64, names, opening);
        // Of the library, the call that does the least beyond it.
        let rule = clock.best([
            contestant(|| calls(0..CALLS, |_| black_box(shelf).offsets())),
            contestant(|| calls(0..CALLS, |_| black_box(plain).is_shelf())),
        ]);
        hand_on("opening", &head("rule 10"), CALLS as u64, names, rule);
    }
}
