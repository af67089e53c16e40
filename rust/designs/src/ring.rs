//! The ring designs of source document 001.

/// For a prime `v`: the tuples y·i + x modulo v for i below k, over y from 1 and all x.
pub fn ring(v: usize, k: usize) -> Vec<Vec<u8>> {
    let mut tuples = Vec::new();
    for y in 1..v {
        for x in 0..v {
            tuples.push((0..k).map(|i| ((y * i + x) % v) as u8).collect());
        }
    }
    tuples
}
