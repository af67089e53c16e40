//! The calls on the stored bytes, rebuild apart.

use crate::placing::{for_every_stripe, stripe_places, Place};
use crate::shelf::Shelf;
use crate::units::{fetch, is_lost, mixed, store, Reads};

/// How many units a call read and wrote.
#[derive(Clone, Copy, Debug, Default, PartialEq, Eq)]
pub struct Cost {
    /// Units read.
    pub read: u64,
    /// Units written.
    pub written: u64,
}

/// Every image byte becomes zero.
pub fn blank(shelf: &Shelf, image: &mut [u8]) -> Result<(), u64> {
    try_shelf_and_image(shelf, image)?;
    if shelf.lost.is_some() {
        return Err(14);
    }
    image.fill(0);
    Ok(())
}

/// Unit write.
pub fn write(shelf: &Shelf, image: &mut [u8], address: u64, unit: &[u8]) -> Result<Cost, u64> {
    try_shelf_and_image(shelf, image)?;
    if address >= shelf.addresses() {
        return Err(12);
    }
    if unit.len() as u64 != shelf.unit_size() {
        return Err(13);
    }
    let stripe = stripe_places(shelf, address / (shelf.k - 1));
    let data = stripe.data[(address % (shelf.k - 1)) as usize];
    let (mut reads, mut written) = ([0; 64], 0);
    if is_lost(shelf, data) {
        let mut units = vec![unit.to_vec()];
        for &other in stripe.data.iter().filter(|&&other| other != data) {
            units.push(fetch(shelf, image, other, &mut reads));
        }
        store(shelf, image, stripe.parity, &mixed(&units), &mut written);
    } else if is_lost(shelf, stripe.parity) {
        store(shelf, image, data, unit, &mut written);
    } else {
        let old_data = fetch(shelf, image, data, &mut reads);
        let old_parity = fetch(shelf, image, stripe.parity, &mut reads);
        let parity = mixed(&[old_parity, old_data, unit.to_vec()]);
        store(shelf, image, data, unit, &mut written);
        store(shelf, image, stripe.parity, &parity, &mut written);
    }
    Ok(cost(&reads, written))
}

/// Stripe write: the units of the buffer in address order.
pub fn write_stripe(
    shelf: &Shelf,
    image: &mut [u8],
    stripe: u64,
    buffer: &[u8],
) -> Result<Cost, u64> {
    try_shelf_and_image(shelf, image)?;
    if stripe >= shelf.stripes() {
        return Err(12);
    }
    if buffer.len() as u64 != (shelf.k - 1) * shelf.unit_size() {
        return Err(13);
    }
    let mut units: Vec<Vec<u8>> = Vec::new();
    for unit in buffer.chunks(shelf.unit_size() as usize) {
        units.push(unit.to_vec());
    }
    units.push(mixed(&units));
    let stripe = stripe_places(shelf, stripe);
    let mut places = stripe.data;
    places.push(stripe.parity);
    let mut written = 0;
    for (&place, unit) in places.iter().zip(&units) {
        if !is_lost(shelf, place) {
            store(shelf, image, place, unit, &mut written);
        }
    }
    Ok(cost(&[0; 64], written))
}

/// Read into a unit buffer.
pub fn read(shelf: &Shelf, image: &[u8], address: u64, buffer: &mut [u8]) -> Result<Cost, u64> {
    try_shelf_and_image(shelf, image)?;
    if address >= shelf.addresses() {
        return Err(12);
    }
    if buffer.len() as u64 != shelf.unit_size() {
        return Err(13);
    }
    let stripe = stripe_places(shelf, address / (shelf.k - 1));
    let data = stripe.data[(address % (shelf.k - 1)) as usize];
    let mut reads = [0; 64];
    let unit = if is_lost(shelf, data) {
        let mut places: Vec<Place> = stripe.data;
        places.push(stripe.parity);
        places.retain(|&place| place != data);
        let rest = places.iter().map(|&at| fetch(shelf, image, at, &mut reads));
        mixed(&rest.collect::<Vec<_>>())
    } else {
        fetch(shelf, image, data, &mut reads)
    };
    buffer.copy_from_slice(&unit);
    Ok(cost(&reads, 0))
}

/// The number of wrong stripes.
pub fn scrub(shelf: &Shelf, image: &[u8]) -> Result<u64, u64> {
    try_shelf_and_image(shelf, image)?;
    if shelf.lost.is_some() {
        return Err(14);
    }
    let mut reads = [0; 64];
    let mut wrong = 0;
    for_every_stripe(shelf, |_, stripe| {
        let mut units = vec![fetch(shelf, image, stripe.parity, &mut reads)];
        for &place in &stripe.data {
            units.push(fetch(shelf, image, place, &mut reads));
        }
        if mixed(&units).iter().any(|&byte| byte != 0) {
            wrong += 1;
        }
    });
    Ok(wrong)
}

/// Rules 10 and 11.
pub fn try_shelf_and_image(shelf: &Shelf, image: &[u8]) -> Result<(), u64> {
    if !shelf.is_shelf() {
        return Err(10);
    }
    if image.len() as u64 != shelf.image_size() {
        return Err(11);
    }
    Ok(())
}

fn cost(reads: &Reads, written: u64) -> Cost {
    let read = reads.iter().sum();
    Cost { read, written }
}
