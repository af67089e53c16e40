//! The rebuild of sheet A with T 100 and u 12, beside plain Rust byte by byte, as the customer asked, and beside a copy of the disk.

use crate::bulk::same_images;
use crate::figures::{hand_on, ISAL, LIBRARY};
use crate::memory::Bytes;
use crate::sheets::sheet;
use crate::stripes::Stripes;
use crate::time::{contestant, timed, Clock};
use crate::{isal, plain};
use shqemtuli::Shelf;
use std::cell::RefCell;
use std::hint::black_box;

pub const BY_BYTES: &str = "plain, byte by byte";
pub const BY_UNITS: &str = "plain, unit by unit";
pub const COPY_OF_DISK: &str = "copy of the disk";

pub fn measure(clock: &Clock) {
    let sheet = sheet("all 3 of 4", 100, 12);
    let mut shelf = Shelf::open(&sheet).unwrap();
    let mut plain = plain::sheet::open(&sheet).unwrap();
    plain.lost = Some(1);
    let lost = Stripes::of_lost(&plain);
    let mut image = Bytes::random(plain.image());
    let disk = image.len() / 4;
    let mut copy = Bytes::zeros(disk);
    let by_isal = isal::generates(3);
    same_images(&mut shelf, &plain, by_isal.then_some(&lost), &image);
    let image = RefCell::new(&mut *image);
    let times = clock.best([
        contestant(|| {
            shelf.lose(1).unwrap();
            let image = &mut image.borrow_mut();
            timed(|| shelf.rebuild(image).unwrap())
        }),
        contestant(|| {
            let image = &mut image.borrow_mut();
            timed(|| plain.rebuild_byte_by_byte(image).unwrap())
        }),
        contestant(|| {
            let image = &mut image.borrow_mut();
            timed(|| plain.rebuild_by_units(image).unwrap())
        }),
        contestant(|| {
            let image = &mut image.borrow_mut();
            timed(|| lost.restore(image))
        })
        .filter(|_| by_isal),
        contestant(|| {
            let image = &image.borrow();
            timed(|| copy.copy_from_slice(black_box(&image[disk..][..disk])))
        }),
    ]);
    let names = [LIBRARY, BY_BYTES, BY_UNITS, ISAL, COPY_OF_DISK];
    hand_on("sheet-a", "1", 1, names, times);
}
