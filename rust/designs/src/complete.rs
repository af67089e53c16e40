//! Complete designs: every set of k disks, in rising order.

/// All sets of `k` of the numbers below `v`, sorted.
pub fn complete(v: usize, k: usize) -> Vec<Vec<u8>> {
    if k == 0 {
        return vec![Vec::new()];
    }
    let mut tuples = Vec::new();
    for first in 0..v {
        for rest in complete(v - first - 1, k - 1) {
            let mut tuple = vec![first as u8];
            tuple.extend(rest.iter().map(|disk| disk + first as u8 + 1));
            tuples.push(tuple);
        }
    }
    tuples
}
