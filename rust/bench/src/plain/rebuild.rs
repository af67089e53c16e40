//! The whole rebuild, in two ways, and the scrub, with their rules tried.

use super::units::mix;
use super::Shelf;

impl Shelf {
    /// Rules 10, 11 and 15.
    fn try_rebuild(&self, image: &[u8]) -> Result<(), u64> {
        match () {
            () if !self.is_shelf() => Err(10),
            () if image.len() != self.image() => Err(11),
            () if self.lost.is_none() => Err(15),
            () => Ok(()),
        }
    }

    /// Each byte of the lost disk as the exclusive-or of the bytes of its stripe, one byte after another.
    pub fn rebuild_byte_by_byte(&self, image: &mut [u8]) -> Result<[u64; 64], u64> {
        self.try_rebuild(image)?;
        let mut counts = [0; 64];
        self.for_lost(|lost, rest, disks| {
            for byte in 0..self.unit() {
                let mut sum = 0;
                for from in rest {
                    sum ^= image[from + byte];
                }
                image[lost + byte] = sum;
            }
            disks.iter().for_each(|&disk| counts[disk as usize] += 1);
        });
        Ok(counts)
    }

    /// Each unit by mixing whole units into a buffer.
    pub fn rebuild_by_units(&self, image: &mut [u8]) -> Result<[u64; 64], u64> {
        self.try_rebuild(image)?;
        let mut counts = [0; 64];
        let mut sum = vec![0; self.unit()];
        self.for_lost(|lost, rest, disks| {
            sum.fill(0);
            for &from in rest {
                mix(&mut sum, &image[from..][..self.unit()]);
            }
            image[lost..][..self.unit()].copy_from_slice(&sum);
            disks.iter().for_each(|&disk| counts[disk as usize] += 1);
        });
        Ok(counts)
    }

    /// For each unit of the lost disk: where it begins, where the rest of its stripe begins, and the disks of that rest.
    pub fn for_lost(&self, mut f: impl FnMut(usize, &[usize], &[u8])) {
        let lost = self.lost.expect("a disk is lost");
        let ranks = self.ranks();
        let (mut rest, mut disks) = (Vec::new(), Vec::new());
        for stripe in 0..self.stripes() {
            let tuple = &self.table[stripe % self.b * self.k..][..self.k];
            let position = match tuple.iter().position(|&disk| disk == lost) {
                Some(position) => position,
                None => continue,
            };
            rest.clear();
            disks.clear();
            for other in (0..self.k).filter(|&other| other != position) {
                rest.push(self.start(&ranks, stripe, other));
                disks.push(tuple[other]);
            }
            f(self.start(&ranks, stripe, position), &rest, &disks);
        }
    }

    /// The number of wrong stripes; rules 10, 11 and 14 are tried.
    pub fn scrub(&self, image: &[u8]) -> Result<u64, u64> {
        match () {
            () if !self.is_shelf() => return Err(10),
            () if image.len() != self.image() => return Err(11),
            () if self.lost.is_some() => return Err(14),
            () => {}
        }
        let ranks = self.ranks();
        let mut sum = vec![0; self.unit()];
        let mut wrong = 0;
        for stripe in 0..self.stripes() {
            sum.fill(0);
            for position in 0..self.k {
                let start = self.start(&ranks, stripe, position);
                mix(&mut sum, &image[start..][..self.unit()]);
            }
            wrong += u64::from(sum.iter().fold(0, |any, byte| any | byte) != 0);
        }
        Ok(wrong)
    }
}
