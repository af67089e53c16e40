//! "Where a unit stands": placing, looking up, runs, and the whole layout.

use crate::shelf::Shelf;

/// A disk and an offset on it.
#[derive(Clone, Copy, Debug, PartialEq, Eq)]
pub struct Place {
    /// The disk.
    pub disk: u64,
    /// The offset, in units.
    pub offset: u64,
}

/// What placing an address gives.
#[derive(Clone, Copy, Debug, PartialEq, Eq)]
pub struct Record {
    /// Where the address stands.
    pub data: Place,
    /// Where the parity of its stripe stands.
    pub parity: Place,
}

/// What looking a place up gives.
#[derive(Clone, Copy, Debug, PartialEq, Eq)]
pub struct Found {
    /// The stripe.
    pub stripe: u64,
    /// The address, or none for the parity.
    pub address: Option<u64>,
}

/// The places of a stripe.
#[derive(Clone, Debug, PartialEq, Eq)]
pub struct Stripe {
    /// The parity.
    pub parity: Place,
    /// The data, in address order.
    pub data: Vec<Place>,
}

/// Where an address stands, and its parity.
pub fn place(shelf: &Shelf, address: u64) -> Result<Record, u64> {
    if !shelf.is_shelf() {
        return Err(10);
    }
    if address >= shelf.addresses() {
        return Err(12);
    }
    Ok(placed(shelf, address))
}

/// The stripe of a place, and the address or "parity".
pub fn look_up(shelf: &Shelf, disk: u64, offset: u64) -> Result<Found, u64> {
    if !shelf.is_shelf() {
        return Err(10);
    }
    if disk >= shelf.v || offset >= shelf.offsets() {
        return Err(12);
    }
    let t = offset / (shelf.r * shelf.k);
    let c = offset % (shelf.r * shelf.k) / shelf.r;
    let before = offset % shelf.r;
    let holds = |q: &u64| shelf.tuple(*q).contains(&(disk as u8));
    let q = (0..shelf.b).filter(holds).nth(before as usize).unwrap();
    let stripe = t * shelf.b * shelf.k + c * shelf.b + q;
    let at = Place { disk, offset };
    let units = stripe_places(shelf, stripe);
    let data = units.data.iter().position(|&unit| unit == at);
    let address = data.map(|j| stripe * (shelf.k - 1) + j as u64);
    Ok(Found { stripe, address })
}

/// Fills the list with the places of consecutive addresses.
pub fn run(shelf: &Shelf, first: u64, list: &mut [Record]) -> Result<(), u64> {
    if !shelf.is_shelf() {
        return Err(10);
    }
    let end = u128::from(first) + list.len() as u128;
    if end > u128::from(shelf.addresses()) {
        return Err(12);
    }
    for (record, address) in list.iter_mut().zip(first..) {
        *record = placed(shelf, address);
    }
    Ok(())
}

fn placed(shelf: &Shelf, address: u64) -> Record {
    let stripe = stripe_places(shelf, address / (shelf.k - 1));
    let j = address % (shelf.k - 1);
    Record {
        data: stripe.data[j as usize],
        parity: stripe.parity,
    }
}

/// The places of one stripe, by document 01's rule.
pub fn stripe_places(shelf: &Shelf, s: u64) -> Stripe {
    let t = s / (shelf.b * shelf.k);
    let w = s % (shelf.b * shelf.k);
    let c = w / shelf.b;
    let q = w % shelf.b;
    let parity_position = shelf.k - 1 - c;
    let at = |position: u64| {
        let disk = shelf.tuple(q)[position as usize];
        let before = (0..q).filter(|&q| shelf.tuple(q).contains(&disk)).count();
        Place {
            disk: u64::from(disk),
            offset: t * shelf.r * shelf.k + c * shelf.r + before as u64,
        }
    };
    let data_position = |j: u64| if j < parity_position { j } else { j + 1 };
    Stripe {
        parity: at(parity_position),
        data: (0..shelf.k - 1).map(|j| at(data_position(j))).collect(),
    }
}

/// Lays the stripes out one after another, each unit at the next offset of its disk that is free, and hands each to `f`
/// with its number. The rule for offsets says the same; a test holds the two against each other.
pub fn for_every_stripe(shelf: &Shelf, mut f: impl FnMut(u64, &Stripe)) {
    let mut used = [0; 64];
    let mut number = 0;
    for _full_table in 0..shelf.t {
        for copy in 0..shelf.k {
            for q in 0..shelf.b {
                let mut data: Vec<Place> = Vec::new();
                for &disk in shelf.tuple(q) {
                    let offset = used[disk as usize];
                    used[disk as usize] += 1;
                    let disk = u64::from(disk);
                    data.push(Place { disk, offset });
                }
                let parity = data.remove((shelf.k - 1 - copy) as usize);
                f(number, &Stripe { parity, data });
                number += 1;
            }
        }
    }
}
