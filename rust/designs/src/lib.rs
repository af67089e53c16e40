//! What the tests run on: a catalogue of balanced designs, the bytes of sheets both good and damaged, and a small random
//! generator. It knows neither the library nor the model.

#![forbid(unsafe_code)]
#![deny(missing_docs)]

mod balance;
mod catalogue;
mod complete;
mod damage;
mod difference;
mod field;
mod geometry;
mod random;
mod ring;
mod settings;
mod sheet;

pub use balance::balance;
pub use catalogue::catalogue;
pub use damage::damaged;
pub use random::Random;
pub use settings::{rounds, seeded};
pub use sheet::{from_hex, Sheet};

/// A list of tuples of `k` disks out of `v`.
#[derive(Clone, Debug, PartialEq, Eq)]
pub struct Design {
    /// What it is called in the messages of a test.
    pub name: String,
    /// The number of disks.
    pub v: usize,
    /// The number of disks in a tuple.
    pub k: usize,
    /// The tuples, in order.
    pub tuples: Vec<Vec<u8>>,
}

impl Design {
    /// The design of these tuples; `k` is the length of the first one.
    pub fn new(name: &str, v: usize, tuples: Vec<Vec<u8>>) -> Design {
        let name = name.to_string();
        let k = tuples[0].len();
        Design { name, v, k, tuples }
    }

    /// Each tuple replaced by the disks that it does not hold.
    pub fn complement(&self, name: &str) -> Design {
        let rest = |tuple: &Vec<u8>| {
            (0..self.v as u8)
                .filter(|disk| !tuple.contains(disk))
                .collect()
        };
        Design::new(name, self.v, self.tuples.iter().map(rest).collect())
    }

    /// The same tuples, all of them, `times` over.
    pub fn repeated(&self, name: &str, times: usize) -> Design {
        Design::new(name, self.v, vec![self.tuples.clone(); times].concat())
    }

    /// Each tuple turned by its own number, so that the places inside the tuples differ.
    pub fn turned(mut self) -> Design {
        for (number, tuple) in self.tuples.iter_mut().enumerate() {
            tuple.rotate_left(number % self.k);
        }
        self
    }

    /// The same design with other disk numbers, another order of the tuples and another order inside each.
    pub fn shuffled(&self, random: &mut Random) -> Design {
        let mut disks: Vec<u8> = (0..self.v as u8).collect();
        random.shuffle(&mut disks);
        let mut shuffled = self.clone();
        random.shuffle(&mut shuffled.tuples);
        for tuple in &mut shuffled.tuples {
            for disk in tuple.iter_mut() {
                *disk = disks[*disk as usize];
            }
            random.shuffle(tuple);
        }
        shuffled
    }
}
