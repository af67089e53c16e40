//! Calls on single units and stripes, by the byte: many calls on images of about a million bytes, and beside them the floor, rule 10,
//! which every call begins with.

use crate::bulk::head;
use crate::figures::{floor_of, hand_on, COPY, ISAL, LIBRARY, PLAIN};
use crate::memory::Bytes;
use crate::sheets::{design, whole};
use crate::stripes::Stripes;
use crate::time::{contestant, timed, Clock, Contestant};
use crate::{isal, plain};
use designs::{Design, Random, Sheet};
use shqemtuli::Shelf;
use std::hint::black_box;
use std::time::Duration;

/// How many calls are timed together.
const CALLS: usize = 500;

/// Small designs of rising k, so that the floor is low, with T for units of 4,096 bytes.
fn designs() -> [(Design, u64); 5] {
    [
        (whole(2), 64),
        (design("all 3 of 4", 1), 7),
        (design("(11,5,2) biplane", 1), 1),
        (whole(8), 4),
        (whole(16), 1),
    ]
}

/// A shelf twice over, with an image.
struct Subject {
    shelf: Shelf,
    plain: plain::Shelf,
    image: Bytes,
}

fn subjects() -> impl Iterator<Item = Subject> {
    let all = [12, 9].map(|u| designs().map(|(design, t)| Sheet::new(&design, t << (12 - u), u)));
    all.into_iter().flatten().map(|sheet| {
        let plain = plain::sheet::open(&sheet.bytes()).unwrap();
        Subject {
            shelf: Shelf::open(&sheet.bytes()).unwrap(),
            image: Bytes::random(plain.image()),
            plain,
        }
    })
}

/// Times the contestants, and the floors of the library and of plain Rust.
fn compare(
    clock: &Clock,
    section: &str,
    (shelf, plain): (&Shelf, &plain::Shelf),
    bytes: usize,
    [library, by_plain, isal, copy]: [Contestant; 4],
) {
    let times = clock.best([
        library,
        by_plain,
        isal,
        copy,
        contestant(|| calls(0..CALLS, |_| black_box(shelf).offsets())),
        contestant(|| calls(0..CALLS, |_| black_box(plain).is_shelf())),
    ]);
    let floors = [floor_of(LIBRARY), floor_of(PLAIN)];
    let names = [LIBRARY, PLAIN, ISAL, COPY, &floors[0], &floors[1]];
    hand_on(section, &head(shelf), (bytes * CALLS) as u64, names, times);
}

/// The time of a call for each of these.
pub fn calls<A, B>(on: impl IntoIterator<Item = A>, mut call: impl FnMut(A) -> B) -> Duration {
    timed(|| {
        for each in on {
            black_box(call(each));
        }
    })
}

/// Any numbers of a list.
fn some(mut from: Vec<usize>) -> Vec<usize> {
    Random::new(1).shuffle(&mut from);
    from.into_iter().cycle().take(CALLS).collect()
}

pub fn read(clock: &Clock) {
    for mut subject in subjects() {
        subject.shelf.lose(0).unwrap();
        subject.plain.lost = Some(0);
        let Subject {
            shelf,
            plain,
            image,
        } = &subject;
        let lost = |address: &usize| {
            let (stripe, position) = plain.position(*address);
            plain.place(stripe, position).0 == 0
        };
        let addresses = some((0..plain.stripes() * (plain.k - 1)).filter(lost).collect());
        let stripes = Stripes::of_addresses(plain, &addresses);
        let by_isal = isal::generates(plain.k);
        let [mut one, mut two, mut three, mut copy] = [0; 4].map(|_| Bytes::zeros(plain.unit()));
        let bytes = (plain.k - 1) * plain.unit();
        let four = [
            contestant(|| {
                calls(&addresses, |&a| {
                    shelf.read(image, a as u64, &mut one).unwrap()
                })
            }),
            contestant(|| calls(&addresses, |&a| plain.read(image, a, &mut two).unwrap())),
            contestant(|| timed(|| stripes.read(image, &mut three))).filter(|_| by_isal),
            contestant(|| timed(|| stripes.copy_but_last(image, black_box(&mut copy)))),
        ];
        compare(clock, "read", (shelf, plain), bytes, four);
        assert!(
            *one == *two && (!by_isal || *one == *three),
            "the units differ"
        );
    }
}

pub fn write(clock: &Clock) {
    for Subject {
        shelf,
        plain,
        image,
    } in subjects()
    {
        let addresses = some((0..plain.stripes() * (plain.k - 1)).collect());
        let stripes = Stripes::data_and_parity(&plain, &addresses);
        let by_isal = isal::generates(4);
        let unit = &Bytes::random(plain.unit());
        let [mut one, mut two, mut three, mut copy] = [0; 4].map(|_| image.twin());
        let four = [
            contestant(|| {
                calls(&addresses, |&a| {
                    shelf.write(&mut one, a as u64, unit).unwrap()
                })
            }),
            contestant(|| calls(&addresses, |&a| plain.write(&mut two, a, unit).unwrap())),
            contestant(|| timed(|| stripes.write(&mut three, unit))).filter(|_| by_isal),
            contestant(|| timed(|| stripes.copy_into(black_box(&mut copy), unit))),
        ];
        compare(clock, "write", (&shelf, &plain), 2 * plain.unit(), four);
        assert!(
            *one == *two && (!by_isal || *one == *three),
            "the images differ"
        );
    }
}

pub fn write_stripe(clock: &Clock) {
    for Subject {
        shelf,
        plain,
        image,
    } in subjects()
    {
        let numbers = some((0..plain.stripes()).collect());
        let stripes = Stripes::with_parity_last(&plain, &numbers);
        let by_isal = isal::generates(plain.k);
        let buffer = &Bytes::random((plain.k - 1) * plain.unit());
        let [mut one, mut two, mut three, mut copy] = [0; 4].map(|_| image.twin());
        let four = [
            contestant(|| {
                calls(&numbers, |&s| {
                    shelf.write_stripe(&mut one, s as u64, buffer).unwrap()
                })
            }),
            contestant(|| {
                calls(&numbers, |&s| {
                    plain.write_stripe(&mut two, s, buffer).unwrap()
                })
            }),
            contestant(|| timed(|| stripes.write_whole(&mut three, buffer))).filter(|_| by_isal),
            contestant(|| timed(|| stripes.copy_into(black_box(&mut copy), buffer))),
        ];
        compare(
            clock,
            "stripe",
            (&shelf, &plain),
            plain.k * plain.unit(),
            four,
        );
        assert!(
            *one == *two && (!by_isal || *one == *three),
            "the images differ"
        );
    }
}
