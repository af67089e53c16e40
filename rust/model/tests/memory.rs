//! The model held against a memory that knows nothing of disks: it keeps the unit last written at each address.

use designs::{catalogue, rounds, seeded, Random, Sheet};
use model::*;
use std::collections::HashMap;

/// A shelf, its image, the same image on a shelf that never loses a disk, and the memory.
struct Both {
    shelf: Shelf,
    image: Vec<u8>,
    whole: Shelf,
    untouched: Vec<u8>,
    memory: HashMap<u64, Vec<u8>>,
}

impl Both {
    fn new(sheet: &[u8], random: &mut Random) -> Both {
        let (number, shelf) = open(sheet);
        assert_eq!(number, 0);
        let mut image = random.bytes(shelf.image_size() as usize);
        blank(&shelf, &mut image).unwrap();
        Both {
            whole: shelf.clone(),
            shelf,
            untouched: image.clone(),
            image,
            memory: HashMap::new(),
        }
    }

    fn size(&self) -> usize {
        self.shelf.unit_size() as usize
    }

    fn remembered(&self, address: u64) -> Vec<u8> {
        let blank = vec![0; self.size()];
        self.memory.get(&address).cloned().unwrap_or(blank)
    }

    fn write(&mut self, random: &mut Random) {
        let address = random.below(self.shelf.addresses());
        let unit = random.bytes(self.size());
        write(&self.shelf, &mut self.image, address, &unit).unwrap();
        write(&self.whole, &mut self.untouched, address, &unit).unwrap();
        self.memory.insert(address, unit);
    }

    fn write_stripe(&mut self, random: &mut Random) {
        let stripe = random.below(self.shelf.stripes());
        let data = self.shelf.k - 1;
        let buffer = random.bytes(data as usize * self.size());
        write_stripe(&self.shelf, &mut self.image, stripe, &buffer).unwrap();
        write_stripe(&self.whole, &mut self.untouched, stripe, &buffer).unwrap();
        for (j, unit) in buffer.chunks(self.size()).enumerate() {
            self.memory.insert(stripe * data + j as u64, unit.to_vec());
        }
    }

    fn read(&self, random: &mut Random) {
        let address = random.below(self.shelf.addresses());
        let mut unit = random.bytes(self.size());
        read(&self.shelf, &self.image, address, &mut unit).unwrap();
        assert_eq!(unit, self.remembered(address));
        match show_address(&self.shelf, &self.image, address, &unit).unwrap() {
            Shown::Image(at) => assert_eq!(self.image[at as usize..][..unit.len()], unit),
            Shown::Other => assert!(self.shelf.lost.is_some()),
        }
    }

    /// Puts any bytes on the lost disk.
    fn scribble(&mut self, random: &mut Random) {
        if let Some(lost) = self.shelf.lost {
            let region = self.image.len() / self.shelf.v as usize;
            let from = region * lost as usize;
            let noise = random.bytes(region);
            self.image[from..from + region].copy_from_slice(&noise);
        }
    }

    fn lose_or_rebuild(&mut self, random: &mut Random) {
        if self.shelf.lost.is_none() {
            lose(&mut self.shelf, random.below(self.whole.v)).unwrap();
            return;
        }
        rebuild(&mut self.shelf, &mut self.image).unwrap();
        assert_eq!(self.shelf, self.whole);
        assert!(self.image == self.untouched, "the images differ");
        assert_eq!(scrub(&self.shelf, &self.image), Ok(0));
    }

    fn every_address_is_remembered(&self) {
        let mut unit = vec![0; self.size()];
        for address in 0..self.shelf.addresses() {
            read(&self.shelf, &self.image, address, &mut unit).unwrap();
            assert_eq!(unit, self.remembered(address));
        }
    }
}

#[test]
fn reads_give_what_was_written_last() {
    let mut random = seeded("model: memory");
    let small = |design: &designs::Design| design.tuples.len() * design.k <= 400;
    let all: Vec<_> = catalogue().into_iter().filter(small).collect();
    for _ in 0..200 * rounds() {
        let design = random.pick(&all).shuffled(&mut random);
        let sheet = Sheet::new(&design, 1 + random.below(2), random.below(3)).bytes();
        let mut both = Both::new(&sheet, &mut random);
        for _ in 0..150 {
            match random.below(20) {
                0..=7 => both.write(&mut random),
                8..=10 => both.write_stripe(&mut random),
                11..=16 => both.read(&mut random),
                17..=18 => both.scribble(&mut random),
                _ => both.lose_or_rebuild(&mut random),
            }
        }
        if both.shelf.addresses() < 500 {
            both.every_address_is_remembered();
        }
    }
}
