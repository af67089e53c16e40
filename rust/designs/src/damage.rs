//! Sheets damaged so that a given number, or several at once, should be the answer of opening.

use crate::{Random, Sheet};

/// The bytes of the sheet after a damage for each of the numbers. Where the design leaves no room for a damage (no disk
/// number is out of range where v is 64), that one is left out.
pub fn damaged(sheet: &Sheet, numbers: &[u64], random: &mut Random) -> Vec<u8> {
    let mut sheet = sheet.clone();
    // The tuples are damaged by the k that they were written with, so the limits come after them.
    let in_this_order = [5, 6, 8, 9, 7, 2, 3];
    for number in in_this_order.iter().filter(|n| numbers.contains(n)) {
        match number {
            2 => sheet.edition = *random.pick(&[0, 2, 3, 4, 5, 8, 9, 15]),
            3 => break_a_limit(&mut sheet, random),
            5 => put_out_of_range(&mut sheet, random),
            6 => repeat_a_disk(&mut sheet, random),
            7 => sheet.filling = random.number(),
            8 => replace_a_disk(&mut sheet, random),
            9 => exchange_two_disks(&mut sheet, random),
            _ => {}
        }
    }
    let mut bytes = sheet.bytes();
    if numbers.contains(&4) {
        change_the_length(&mut bytes, random);
    }
    if numbers.contains(&1) {
        bytes.truncate(random.index(6));
    }
    bytes
}

fn break_a_limit(sheet: &mut Sheet, random: &mut Random) {
    match random.below(8) {
        0 => sheet.v = random.below(2),
        1 => sheet.v = 65 + random.below(63),
        2 => sheet.k = random.below(2),
        3 => sheet.k = (sheet.v + 1).min(17 + random.below(15)),
        4 => sheet.b = 0,
        5 => sheet.b = (2048 / sheet.k + 1 + random.below(4)).min(4095),
        6 => sheet.t = 0,
        _ => sheet.u = 13 + random.below(3),
    }
}

fn put_out_of_range(sheet: &mut Sheet, random: &mut Random) {
    if sheet.v < 64 {
        let at = sheet.some_entry(random);
        let above = if random.chance(1, 2) {
            0
        } else {
            random.below(64 - sheet.v)
        };
        sheet.disks[at] = (sheet.v + above) as u8;
    }
}

fn repeat_a_disk(sheet: &mut Sheet, random: &mut Random) {
    let k = sheet.k as usize;
    let at = sheet.some_entry(random);
    let tuple = at / k * k;
    let other = tuple + (at - tuple + 1 + random.index(k - 1)) % k;
    sheet.disks[at] = sheet.disks[other];
}

/// Puts into a tuple a disk that it does not hold: then disks stand unequally often.
fn replace_a_disk(sheet: &mut Sheet, random: &mut Random) {
    let k = sheet.k as usize;
    let at = sheet.some_entry(random);
    let tuple = &sheet.disks[at / k * k..][..k];
    let absent: Vec<u8> = (0..sheet.v as u8).filter(|d| !tuple.contains(d)).collect();
    if !absent.is_empty() {
        sheet.disks[at] = *random.pick(&absent);
    }
}

/// Exchanges disks of two tuples that do not hold each other's: disks stay equally often, pairs in general do not.
fn exchange_two_disks(sheet: &mut Sheet, random: &mut Random) {
    let k = sheet.k as usize;
    for _ in 0..100 {
        let (one, other) = (sheet.some_entry(random), sheet.some_entry(random));
        let tuple = |at: usize| &sheet.disks[at / k * k..][..k];
        let (mine, yours) = (sheet.disks[one], sheet.disks[other]);
        if !tuple(one).contains(&yours) && !tuple(other).contains(&mine) {
            sheet.disks.swap(one, other);
            return;
        }
    }
}

fn change_the_length(bytes: &mut Vec<u8>, random: &mut Random) {
    match random.below(4) {
        0 => bytes.truncate(bytes.len() - 1),
        1 => bytes.truncate(6 + random.index(bytes.len() - 6)),
        2 => bytes.push(0),
        _ => {
            let surplus = 1 + random.index(40);
            bytes.extend(random.bytes(surplus));
        }
    }
}
