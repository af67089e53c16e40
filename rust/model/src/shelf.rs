//! The shelf value, its limits and rule 10.

use crate::balance;

/// "The shelf value and the calls": the numbers, the table and the lost disk.
#[derive(Clone, Debug, PartialEq, Eq)]
pub struct Shelf {
    /// Disks.
    pub v: u64,
    /// Units in a stripe.
    pub k: u64,
    /// Tuples.
    pub b: u64,
    /// Full tables.
    pub t: u64,
    /// A unit is 2^u bytes.
    pub u: u64,
    /// In how many tuples each disk stands.
    pub r: u64,
    /// In how many tuples each pair of disks stands.
    pub lambda: u64,
    /// The disk numbers, tuple after tuple, and zeros after them.
    pub table: [u8; 2048],
    /// The lost disk, if any.
    pub lost: Option<u8>,
}

/// "Limits": rule 3.
pub fn within_limits(v: u64, k: u64, b: u64, t: u64, u: u64) -> bool {
    (2..=64).contains(&v)
        && (2..=v.min(16)).contains(&k)
        && (1..=2048).contains(&b)
        && b * k <= 2048
        && (1..=65535).contains(&t)
        && u <= 12
}

impl Shelf {
    /// What a refused opening gives: every number zero, no disk lost.
    pub fn empty() -> Shelf {
        Shelf {
            v: 0,
            k: 0,
            b: 0,
            t: 0,
            u: 0,
            r: 0,
            lambda: 0,
            table: [0; 2048],
            lost: None,
        }
    }

    /// Rule 10: an accepted opening can give this value, a lost disk below v apart.
    pub fn is_shelf(&self) -> bool {
        if !within_limits(self.v, self.k, self.b, self.t, self.u) {
            return false;
        }
        let (disks, rest) = self.table.split_at((self.b * self.k) as usize);
        let tuples = || disks.chunks(self.k as usize);
        disks.iter().all(|&disk| u64::from(disk) < self.v)
            && rest.iter().all(|&disk| disk == 0)
            && !tuples().any(balance::has_a_disk_twice)
            && balance::times_of_each_disk(self.v, tuples()) == Some(self.r)
            && balance::times_of_each_pair(self.v, tuples()) == Some(self.lambda)
            && self.lost.map_or(true, |disk| u64::from(disk) < self.v)
    }

    /// The tuple of this number.
    pub fn tuple(&self, q: u64) -> &[u8] {
        &self.table[(q * self.k) as usize..][..self.k as usize]
    }

    /// S = T·b·k stripes.
    pub fn stripes(&self) -> u64 {
        self.t * self.b * self.k
    }

    /// N = S·(k-1) addresses.
    pub fn addresses(&self) -> u64 {
        self.stripes() * (self.k - 1)
    }

    /// T·r·k units on each disk.
    pub fn offsets(&self) -> u64 {
        self.t * self.r * self.k
    }

    /// U = 2^u bytes in a unit.
    pub fn unit_size(&self) -> u64 {
        1 << self.u
    }

    /// v·T·r·k·U bytes in the image.
    pub fn image_size(&self) -> u64 {
        self.v * self.offsets() * self.unit_size()
    }
}
