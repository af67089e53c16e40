//! Unit calls, beside plain Rust with the same checks, on the smallest shelf and on one of 64 disks.

use crate::calls::calls;
use crate::figures::{hand_on, LIBRARY, PLAIN};
use crate::memory::Bytes;
use crate::plain;
use crate::sheets::sheet;
use crate::time::{contestant, Clock};
use designs::Random;
use shqemtuli::Shelf;
use std::time::Duration;

/// How many calls are timed together.
const CALLS: usize = 100;

pub fn measure(clock: &Clock) {
    for name in ["all 3 of 4", "(64,16,5) planes"] {
        for u in [12, 9, 0] {
            let mut pair = Pair::new(name, u);
            pair.writes(clock);
            pair.reads(clock, "read");
            pair.shelf.lose(0).unwrap();
            pair.plain.lost = Some(0);
            pair.reads(clock, "read, disk 0 lost");
        }
    }
}

struct Pair {
    shelf: Shelf,
    plain: plain::Shelf,
    image: Bytes,
    twin: Bytes,
    addresses: Vec<u64>,
}

impl Pair {
    fn new(name: &str, u: u64) -> Pair {
        let sheet = sheet(name, 1, u);
        let shelf = Shelf::open(&sheet).unwrap();
        let image = Bytes::random(shelf.image_size() as usize);
        let mut random = Random::new(u);
        Pair {
            plain: plain::sheet::open(&sheet).unwrap(),
            twin: image.twin(),
            image,
            addresses: (0..CALLS)
                .map(|_| random.below(shelf.addresses()))
                .collect(),
            shelf,
        }
    }

    fn writes(&mut self, clock: &Clock) {
        let Pair {
            shelf,
            plain,
            image,
            twin,
            addresses,
        } = self;
        let unit = &Bytes::random(plain.unit());
        let times = clock.best([
            contestant(|| calls(&*addresses, |&a| shelf.write(image, a, unit).unwrap())),
            contestant(|| {
                calls(&*addresses, |&a| {
                    plain.write(twin, a as usize, unit).unwrap()
                })
            }),
        ]);
        assert!(**image == **twin, "the images differ");
        self.hand_on("write", times);
    }

    fn reads(&self, clock: &Clock, call: &str) {
        let Pair {
            shelf,
            plain,
            image,
            twin,
            addresses,
        } = self;
        let [mut one, mut two] = [0; 2].map(|_| Bytes::zeros(plain.unit()));
        let times = clock.best([
            contestant(|| calls(addresses, |&a| shelf.read(image, a, &mut one).unwrap())),
            contestant(|| {
                calls(addresses, |&a| {
                    plain.read(twin, a as usize, &mut two).unwrap()
                })
            }),
        ]);
        assert!(*one == *two, "the units differ");
        self.hand_on(call, times);
    }

    fn hand_on(&self, call: &str, times: [Option<Duration>; 2]) {
        let plain = &self.plain;
        let head = format!("{}|{}|{}|{}|{call}", plain.v, plain.k, plain.b, plain.u);
        hand_on("units", &head, CALLS as u64, [LIBRARY, PLAIN], times);
    }
}
