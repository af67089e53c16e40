//! The shelf value, rule 10 and the place of a unit.

pub struct Shelf {
    pub v: usize,
    pub k: usize,
    pub b: usize,
    pub t: usize,
    pub u: usize,
    pub r: usize,
    pub lambda: usize,
    pub table: [u8; 2048],
    pub lost: Option<u8>,
}

pub fn within_limits(v: usize, k: usize, b: usize, t: usize, u: usize) -> bool {
    (2..=64).contains(&v)
        && (2..=v.min(16)).contains(&k)
        && (1..=2048).contains(&b)
        && b * k <= 2048
        && (1..=65535).contains(&t)
        && u <= 12
}

/// Whether some tuple has a disk twice; all disks are below 64.
pub fn has_a_repeat(k: usize, disks: &[u8]) -> bool {
    disks.chunks_exact(k).any(|tuple| {
        let set = tuple.iter().fold(0u64, |set, &disk| set | 1 << disk);
        set.count_ones() as usize != k
    })
}

/// r and lambda, or 8 or 9; all disks are below v.
pub fn balance(v: usize, k: usize, disks: &[u8]) -> Result<(usize, usize), u64> {
    let mut counts = [[0u16; 64]; 64];
    for tuple in disks.chunks_exact(k) {
        for &one in tuple {
            for &other in tuple {
                counts[one as usize][other as usize] += 1;
            }
        }
    }
    let (r, lambda) = (counts[0][0], counts[0][1]);
    if (0..v).any(|disk| counts[disk][disk] != r) {
        return Err(8);
    }
    let uneven = |one: usize| counts[one][..one].iter().any(|&n| n != lambda);
    if (1..v).any(uneven) {
        return Err(9);
    }
    Ok((r as usize, lambda as usize))
}

impl Shelf {
    /// Rule 10, in full.
    pub fn is_shelf(&self) -> bool {
        if !within_limits(self.v, self.k, self.b, self.t, self.u) {
            return false;
        }
        let (disks, rest) = self.table.split_at(self.b * self.k);
        disks.iter().fold(0, |most: u8, &disk| most.max(disk)) < self.v as u8
            && rest.iter().fold(0, |any, disk| any | disk) == 0
            && !has_a_repeat(self.k, disks)
            && balance(self.v, self.k, disks) == Ok((self.r, self.lambda))
            && self.lost.map_or(true, |disk| (disk as usize) < self.v)
    }

    pub fn unit(&self) -> usize {
        1 << self.u
    }

    pub fn offsets(&self) -> usize {
        self.t * self.r * self.k
    }

    pub fn stripes(&self) -> usize {
        self.t * self.b * self.k
    }

    pub fn image(&self) -> usize {
        self.v * self.offsets() * self.unit()
    }

    /// The byte at which a unit begins.
    pub fn byte(&self, disk: u8, offset: usize) -> usize {
        (disk as usize * self.offsets() + offset) * self.unit()
    }

    /// Disk and offset of the unit at a position of a stripe.
    pub fn place(&self, stripe: usize, position: usize) -> (u8, usize) {
        let row = stripe / self.b;
        let start = stripe % self.b * self.k;
        let disk = self.table[start + position];
        let before = self.table[..start].iter().filter(|&&d| d == disk).count();
        (disk, row * self.r + before)
    }

    /// The byte at which the unit at a position of a stripe begins.
    pub fn start(&self, ranks: &[usize], stripe: usize, position: usize) -> usize {
        let entry = stripe % self.b * self.k + position;
        self.byte(self.table[entry], stripe / self.b * self.r + ranks[entry])
    }

    /// The stripe of an address and the position of its unit.
    pub fn position(&self, address: usize) -> (usize, usize) {
        let (stripe, j) = (address / (self.k - 1), address % (self.k - 1));
        let step = usize::from(j >= self.parity(stripe));
        (stripe, j + step)
    }

    /// The position of a stripe's parity.
    pub fn parity(&self, stripe: usize) -> usize {
        self.k - 1 - stripe / self.b % self.k
    }

    /// For each entry of the table, how many tuples before its own hold its disk.
    pub fn ranks(&self) -> Vec<usize> {
        let mut seen = [0; 64];
        let disks = &self.table[..self.b * self.k];
        let rank = |&disk: &u8| {
            seen[disk as usize] += 1;
            seen[disk as usize] - 1
        };
        disks.iter().map(rank).collect()
    }
}
