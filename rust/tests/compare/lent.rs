//! What a call is lent: buffers that stand between guard bytes, so that a byte written outside shows.

use crate::coding::encoded;
use designs::Random;
use model::Shelf;

/// How many guard bytes stand before and after a buffer, at least.
const GUARD: usize = 64;

/// Bytes from one place to another of a longer row.
#[derive(Clone, PartialEq, Eq)]
pub struct Buffer {
    all: Vec<u8>,
    from: usize,
    to: usize,
}

impl Buffer {
    /// A buffer of this length, random bytes in it and around it, at a random place modulo 16.
    pub fn random(length: usize, random: &mut Random) -> Buffer {
        let from = GUARD + random.index(16);
        let to = from + length;
        let all = random.bytes(to + GUARD);
        Buffer { all, from, to }
    }

    /// A buffer with this content.
    pub fn holding(content: &[u8], random: &mut Random) -> Buffer {
        let mut buffer = Buffer::random(content.len(), random);
        buffer.bytes_mut().copy_from_slice(content);
        buffer
    }

    pub fn bytes(&self) -> &[u8] {
        &self.all[self.from..self.to]
    }

    pub fn bytes_mut(&mut self) -> &mut [u8] {
        &mut self.all[self.from..self.to]
    }

    pub fn length(&self) -> usize {
        self.to - self.from
    }

    /// Makes the buffer longer or shorter over the same bytes.
    pub fn set_length(&mut self, length: usize) {
        self.to = self.from + length;
        assert!(self.to <= self.all.len());
    }
}

/// Everything that the calls can be lent.
#[derive(Clone, PartialEq, Eq)]
pub struct Lent {
    /// The shelf bytes.
    pub shelf: Buffer,
    /// The image.
    pub image: Buffer,
    /// A sheet, unit, stripe buffer or second buffer.
    pub buffer: Buffer,
    /// What is to be filled: shelf bytes, sheet, place, list, cost or counts.
    pub out: Buffer,
    /// Address, stripe, disk or first; offset.
    pub numbers: [u64; 2],
}

impl Lent {
    /// The shelf and an image of random bytes.
    pub fn new(shelf: &Shelf, random: &mut Random) -> Lent {
        let image = shelf.image_size() as usize;
        Lent {
            shelf: Buffer::holding(&encoded(shelf), random),
            image: Buffer::random(image, random),
            buffer: Buffer::random(0, random),
            out: Buffer::random(0, random),
            numbers: [0, 0],
        }
    }

    /// What differs, by name.
    pub fn differences(&self, other: &Lent) -> Vec<&'static str> {
        let buffers = [
            ("shelf bytes", &self.shelf, &other.shelf),
            ("image", &self.image, &other.image),
            ("buffer", &self.buffer, &other.buffer),
            ("out", &self.out, &other.out),
        ];
        let differing = buffers.into_iter().filter(|(_, one, two)| one != two);
        differing.map(|(name, _, _)| name).collect()
    }
}
