//! The definition of a balanced design, counted directly.

use crate::Design;

/// r and lambda where the design is balanced: each tuple has k different disks below v, each disk stands in r tuples and
/// each pair of disks in lambda tuples.
pub fn balance(design: &Design) -> Option<(usize, usize)> {
    let proper = |tuple: &Vec<u8>| {
        let below = tuple.iter().all(|&disk| (disk as usize) < design.v);
        let mut different = tuple.clone();
        different.sort();
        different.dedup();
        tuple.len() == design.k && different.len() == design.k && below
    };
    if !design.tuples.iter().all(proper) {
        return None;
    }
    let disks = 0..design.v as u8;
    let r = all_equal(disks.clone().map(|d| holding(design, &[d])))?;
    let pairs = disks.flat_map(|d| (0..d).map(move |e| [d, e]));
    let lambda = all_equal(pairs.map(|pair| holding(design, &pair)))?;
    Some((r, lambda))
}

/// How many tuples hold all of these disks.
fn holding(design: &Design, disks: &[u8]) -> usize {
    let holds = |tuple: &&Vec<u8>| disks.iter().all(|disk| tuple.contains(disk));
    design.tuples.iter().filter(holds).count()
}

/// The number that all of these are.
fn all_equal(mut numbers: impl Iterator<Item = usize>) -> Option<usize> {
    let first = numbers.next()?;
    numbers.all(|number| number == first).then_some(first)
}
