//! The bytes of a sheet, from fields that need not be right.

use crate::{Design, Random};

/// Everything that a sheet's bytes are made of.
#[derive(Clone, Debug)]
pub struct Sheet {
    /// 4 bits.
    pub edition: u64,
    /// v, 7 bits.
    pub v: u64,
    /// k, 5 bits.
    pub k: u64,
    /// b, 12 bits.
    pub b: u64,
    /// T, 16 bits.
    pub t: u64,
    /// u, 4 bits.
    pub u: u64,
    /// The disk numbers, 6 bits each.
    pub disks: Vec<u8>,
    /// The bits after the last disk number, of which as many are written as there is room for in its byte.
    pub filling: u64,
    /// Bytes after the last one.
    pub surplus: Vec<u8>,
}

impl Sheet {
    /// The sheet of this design.
    pub fn new(design: &Design, t: u64, u: u64) -> Sheet {
        Sheet {
            edition: 1,
            v: design.v as u64,
            k: design.k as u64,
            b: design.tuples.len() as u64,
            t,
            u,
            disks: design.tuples.concat(),
            filling: 0,
            surplus: Vec::new(),
        }
    }

    /// Its bytes.
    pub fn bytes(&self) -> Vec<u8> {
        let mut bits = Vec::new();
        let header = [
            (self.edition, 4),
            (self.v, 7),
            (self.k, 5),
            (self.b, 12),
            (self.t, 16),
            (self.u, 4),
        ];
        for (value, width) in header {
            push(&mut bits, value, width);
        }
        for &disk in &self.disks {
            push(&mut bits, u64::from(disk), 6);
        }
        push(&mut bits, self.filling, self.filling_width());
        let join = |byte: &[u8]| byte.iter().fold(0, |sum, bit| sum << 1 | bit);
        let mut bytes: Vec<u8> = bits.chunks(8).map(join).collect();
        bytes.extend(&self.surplus);
        bytes
    }

    /// How many bits the filling has.
    pub fn filling_width(&self) -> usize {
        (8 - self.disks.len() * 6 % 8) % 8
    }

    /// The place of some disk number.
    pub fn some_entry(&self, random: &mut Random) -> usize {
        random.index(self.disks.len())
    }
}

/// The bytes that the hexadecimal digits name; spaces are passed over.
pub fn from_hex(digits: &str) -> Vec<u8> {
    let digits: Vec<u32> = digits.chars().filter_map(|c| c.to_digit(16)).collect();
    let byte = |pair: &[u32]| (pair[0] << 4 | pair[1]) as u8;
    digits.chunks(2).map(byte).collect()
}

fn push(bits: &mut Vec<u8>, value: u64, width: usize) {
    for place in (0..width).rev() {
        bits.push((value >> place & 1) as u8);
    }
}
