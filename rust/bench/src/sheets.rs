//! The sheets that are measured.

use designs::{catalogue, Design, Sheet};

/// A design of the catalogue, all tuples so many times over.
pub fn design(name: &str, times: usize) -> Design {
    let found = catalogue().into_iter().find(|design| design.name == name);
    found.expect("the catalogue has it").repeated(name, times)
}

pub fn sheet(name: &str, t: u64, u: u64) -> Vec<u8> {
    Sheet::new(&design(name, 1), t, u).bytes()
}

/// All of so many disks in the one tuple.
pub fn whole(v: u8) -> Design {
    Design::new("whole", v.into(), vec![(0..v).collect()])
}
