//! Unit write, stripe write and read, with rules 10 to 13 tried in each call.

use super::Shelf;

/// Units read and written.
type Cost = (u64, u64);

impl Shelf {
    /// Rules 10 to 13; then the stripe and the data's position in it.
    fn tried(&self, image: usize, address: usize, unit: usize) -> Result<(usize, usize), u64> {
        if !self.is_shelf() {
            return Err(10);
        }
        if image != self.image() {
            return Err(11);
        }
        if address >= self.stripes() * (self.k - 1) {
            return Err(12);
        }
        if unit != self.unit() {
            return Err(13);
        }
        Ok(self.position(address))
    }

    fn at(&self, stripe: usize, position: usize) -> usize {
        let (disk, offset) = self.place(stripe, position);
        self.byte(disk, offset)
    }

    fn is_lost(&self, stripe: usize, position: usize) -> bool {
        self.lost == Some(self.table[stripe % self.b * self.k + position])
    }

    pub fn write(&self, image: &mut [u8], address: usize, unit: &[u8]) -> Result<Cost, u64> {
        let (stripe, position) = self.tried(image.len(), address, unit.len())?;
        let parity = self.parity(stripe);
        let (data_at, parity_at) = (self.at(stripe, position), self.at(stripe, parity));
        if self.is_lost(stripe, position) {
            let mut sum = unit.to_vec();
            for other in (0..self.k).filter(|&p| p != position && p != parity) {
                mix(&mut sum, &image[self.at(stripe, other)..][..unit.len()]);
            }
            image[parity_at..][..unit.len()].copy_from_slice(&sum);
            return Ok((self.k as u64 - 2, 1));
        }
        if self.is_lost(stripe, parity) {
            image[data_at..][..unit.len()].copy_from_slice(unit);
            return Ok((0, 1));
        }
        let (data, parity) = two(image, data_at, parity_at, unit.len());
        for ((data, parity), &new) in data.iter_mut().zip(parity).zip(unit) {
            *parity ^= *data ^ new;
            *data = new;
        }
        Ok((2, 2))
    }

    pub fn write_stripe(
        &self,
        image: &mut [u8],
        stripe: usize,
        buffer: &[u8],
    ) -> Result<Cost, u64> {
        if !self.is_shelf() {
            return Err(10);
        }
        if image.len() != self.image() {
            return Err(11);
        }
        if stripe >= self.stripes() {
            return Err(12);
        }
        if buffer.len() != (self.k - 1) * self.unit() {
            return Err(13);
        }
        let parity = self.parity(stripe);
        let data = (0..self.k).filter(|&position| position != parity);
        let mut written = 0;
        for (position, unit) in data.zip(buffer.chunks_exact(self.unit())) {
            if !self.is_lost(stripe, position) {
                image[self.at(stripe, position)..][..unit.len()].copy_from_slice(unit);
                written += 1;
            }
        }
        if !self.is_lost(stripe, parity) {
            let sum = &mut image[self.at(stripe, parity)..][..self.unit()];
            sum.fill(0);
            for unit in buffer.chunks_exact(sum.len()) {
                mix(sum, unit);
            }
            written += 1;
        }
        Ok((0, written))
    }

    pub fn read(&self, image: &[u8], address: usize, buffer: &mut [u8]) -> Result<Cost, u64> {
        let (stripe, position) = self.tried(image.len(), address, buffer.len())?;
        let unit = |position: usize| &image[self.at(stripe, position)..][..self.unit()];
        if !self.is_lost(stripe, position) {
            buffer.copy_from_slice(unit(position));
            return Ok((1, 0));
        }
        buffer.fill(0);
        for other in (0..self.k).filter(|&other| other != position) {
            mix(buffer, unit(other));
        }
        Ok((self.k as u64 - 1, 0))
    }
}

/// Mixes a unit into another by exclusive-or.
pub fn mix(into: &mut [u8], from: &[u8]) {
    for (into, from) in into.iter_mut().zip(from) {
        *into ^= from;
    }
}

/// Two parts of the image that do not overlap.
fn two(image: &mut [u8], one: usize, other: usize, size: usize) -> (&mut [u8], &mut [u8]) {
    let (low, high) = image.split_at_mut(one.max(other));
    let (first, second) = (&mut low[one.min(other)..][..size], &mut high[..size]);
    if one < other {
        (first, second)
    } else {
        (second, first)
    }
}
