//! Memory at a boundary: on x86-64 ISA-L asks for buffers at multiples of 32 bytes.

use designs::Random;
use std::ops::{Deref, DerefMut};

/// Every buffer that is measured begins at a multiple of this.
const BOUNDARY: usize = 4096;

/// Bytes that begin at a boundary.
pub struct Bytes {
    all: Vec<u8>,
    from: usize,
    length: usize,
}

impl Bytes {
    pub fn zeros(length: usize) -> Bytes {
        let all = vec![0; length + BOUNDARY];
        let address = all.as_ptr() as usize;
        let from = (BOUNDARY - address % BOUNDARY) % BOUNDARY;
        Bytes { all, from, length }
    }

    pub fn random(length: usize) -> Bytes {
        let mut bytes = Bytes::zeros(length);
        bytes.copy_from_slice(&Random::new(length as u64).bytes(length));
        bytes
    }

    /// The same bytes at another place.
    pub fn twin(&self) -> Bytes {
        let mut twin = Bytes::zeros(self.len());
        twin.copy_from_slice(self);
        twin
    }
}

impl Deref for Bytes {
    type Target = [u8];

    fn deref(&self) -> &[u8] {
        &self.all[self.from..][..self.length]
    }
}

impl DerefMut for Bytes {
    fn deref_mut(&mut self) -> &mut [u8] {
        &mut self.all[self.from..][..self.length]
    }
}
