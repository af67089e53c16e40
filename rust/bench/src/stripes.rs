//! What ISA-L and the copy work on: where the units of some stripes begin, looked up before the clock starts. Neither tries a rule.

use crate::isal::Vectors;
use crate::plain;

/// Some stripes of a shelf, the units of each in a certain order.
pub struct Stripes {
    /// How many units are listed for each stripe.
    each: usize,
    unit: usize,
    image: usize,
    /// The byte of the image at which each unit begins.
    starts: Vec<usize>,
}

impl Stripes {
    /// The stripes of the lost disk; its own unit comes last.
    pub fn of_lost(shelf: &plain::Shelf) -> Stripes {
        let mut starts = Vec::new();
        shelf.for_lost(|lost, rest, _| starts.extend(rest.iter().chain([&lost])));
        Stripes::new(shelf, shelf.k, starts)
    }

    /// All stripes; the parity comes last.
    pub fn all(shelf: &plain::Shelf) -> Stripes {
        let stripes: Vec<usize> = (0..shelf.stripes()).collect();
        Stripes::with_parity_last(shelf, &stripes)
    }

    /// These stripes, the data in address order, then the parity.
    pub fn with_parity_last(shelf: &plain::Shelf, stripes: &[usize]) -> Stripes {
        let ranks = shelf.ranks();
        let mut starts = Vec::new();
        for &stripe in stripes {
            let parity = shelf.parity(stripe);
            let data = (0..shelf.k).filter(|&position| position != parity);
            let start = |position| shelf.start(&ranks, stripe, position);
            starts.extend(data.chain([parity]).map(start));
        }
        Stripes::new(shelf, shelf.k, starts)
    }

    /// The stripes of these addresses; the address's own unit comes last.
    pub fn of_addresses(shelf: &plain::Shelf, addresses: &[usize]) -> Stripes {
        let ranks = shelf.ranks();
        let mut starts = Vec::new();
        for &address in addresses {
            let (stripe, own) = shelf.position(address);
            let others = (0..shelf.k).filter(|&position| position != own);
            let start = |position| shelf.start(&ranks, stripe, position);
            starts.extend(others.chain([own]).map(start));
        }
        Stripes::new(shelf, shelf.k, starts)
    }

    /// For each of these addresses its unit and the parity.
    pub fn data_and_parity(shelf: &plain::Shelf, addresses: &[usize]) -> Stripes {
        let ranks = shelf.ranks();
        let mut starts = Vec::new();
        for &address in addresses {
            let (stripe, own) = shelf.position(address);
            let both = [own, shelf.parity(stripe)];
            starts.extend(both.map(|position| shelf.start(&ranks, stripe, position)));
        }
        Stripes::new(shelf, 2, starts)
    }

    fn new(shelf: &plain::Shelf, each: usize, starts: Vec<usize>) -> Stripes {
        let (unit, image) = (shelf.unit(), shelf.image());
        // The pointers that are made of them below point into the image.
        assert!(starts.iter().all(|start| start + unit <= image));
        Stripes {
            each,
            unit,
            image,
            starts,
        }
    }

    fn iter(&self) -> impl Iterator<Item = &[usize]> {
        self.starts.chunks_exact(self.each)
    }

    /// How many bytes the listed units but for the last of each stripe have.
    pub fn bytes_but_last(&self) -> u64 {
        (self.starts.len() / self.each * (self.each - 1) * self.unit) as u64
    }

    /// Makes every stripe right by its last unit.
    pub fn make_right(&self, image: &mut [u8]) {
        let mut sum = vec![0; self.unit];
        for stripe in self.iter() {
            let (last, others) = stripe.split_last().expect("a stripe has units");
            sum.fill(0);
            for &start in others {
                plain::units::mix(&mut sum, &image[start..][..self.unit]);
            }
            image[*last..][..self.unit].copy_from_slice(&sum);
        }
    }

    /// ISA-L: the last unit of each stripe becomes the exclusive-or of the others.
    pub fn restore(&self, image: &mut [u8]) {
        assert_eq!(image.len(), self.image);
        for stripe in self.iter() {
            let mut vectors = Vectors::new();
            for &start in stripe {
                vectors.push(unsafe { image.as_mut_ptr().add(start) });
            }
            unsafe { vectors.generate(self.unit) }
        }
    }

    /// ISA-L: how many stripes are wrong.
    pub fn wrong(&self, image: &[u8]) -> u64 {
        assert_eq!(image.len(), self.image);
        let mut wrong = 0;
        for stripe in self.iter() {
            let mut vectors = Vectors::new();
            for &start in stripe {
                vectors.push(unsafe { image.as_ptr().add(start) as *mut u8 });
            }
            wrong += u64::from(unsafe { !vectors.are_zeros(self.unit) });
        }
        wrong
    }

    /// ISA-L: the buffer becomes the exclusive-or of all units but the last, stripe after stripe.
    pub fn read(&self, image: &[u8], buffer: &mut [u8]) {
        assert_eq!((image.len(), buffer.len()), (self.image, self.unit));
        for stripe in self.iter() {
            let mut vectors = Vectors::new();
            for &start in &stripe[..self.each - 1] {
                vectors.push(unsafe { image.as_ptr().add(start) as *mut u8 });
            }
            vectors.push(buffer.as_mut_ptr());
            unsafe { vectors.generate(self.unit) }
        }
    }

    /// ISA-L: of data and parity, the parity changes by old and new data, and the data becomes the unit.
    pub fn write(&self, image: &mut [u8], unit: &[u8]) {
        assert_eq!(
            (image.len(), unit.len(), self.each),
            (self.image, self.unit, 2)
        );
        for stripe in self.iter() {
            let mut vectors = Vectors::new();
            let [data, parity] = [0, 1].map(|n| unsafe { image.as_mut_ptr().add(stripe[n]) });
            vectors.push(data);
            vectors.push(unit.as_ptr() as *mut u8);
            vectors.push(parity);
            vectors.push(parity);
            unsafe { vectors.generate(self.unit) }
            image[stripe[0]..][..self.unit].copy_from_slice(unit);
        }
    }

    /// ISA-L: the parity of each stripe becomes the exclusive-or of the buffer's units, which are copied to the data's places.
    pub fn write_whole(&self, image: &mut [u8], buffer: &[u8]) {
        let parity = self.each - 1;
        assert_eq!(
            (image.len(), buffer.len()),
            (self.image, parity * self.unit)
        );
        for stripe in self.iter() {
            let mut vectors = Vectors::new();
            for unit in buffer.chunks_exact(self.unit) {
                vectors.push(unit.as_ptr() as *mut u8);
            }
            vectors.push(unsafe { image.as_mut_ptr().add(stripe[parity]) });
            unsafe { vectors.generate(self.unit) }
            for (unit, &start) in buffer.chunks_exact(self.unit).zip(stripe) {
                image[start..][..self.unit].copy_from_slice(unit);
            }
        }
    }

    /// A copy of every unit but the last of each stripe, one after another into the same buffer.
    pub fn copy_but_last(&self, image: &[u8], buffer: &mut [u8]) {
        for stripe in self.iter() {
            for &start in &stripe[..self.each - 1] {
                buffer.copy_from_slice(&image[start..][..self.unit]);
            }
        }
    }

    /// A copy of every unit.
    pub fn copy_all(&self, image: &[u8], buffer: &mut [u8]) {
        for &start in &self.starts {
            buffer.copy_from_slice(&image[start..][..self.unit]);
        }
    }

    /// A copy of the buffer's units to the places of each stripe, of its first one again where there are more places.
    pub fn copy_into(&self, image: &mut [u8], buffer: &[u8]) {
        for stripe in self.iter() {
            for (unit, &start) in buffer.chunks_exact(self.unit).cycle().zip(stripe) {
                image[start..][..self.unit].copy_from_slice(unit);
            }
        }
    }
}
