//! Designs as all translates of some base tuples in a group.

/// The translates of the base tuples by the numbers modulo `v`.
pub fn cyclic(v: usize, base: &[&[u8]]) -> Vec<Vec<u8>> {
    translates(v, base, |a, b| (a + b) % v)
}

/// As `cyclic`, and then `period` translates of one short tuple.
pub fn cyclic_with_short(v: usize, base: &[&[u8]], short: &[u8], period: usize) -> Vec<Vec<u8>> {
    let mut tuples = cyclic(v, base);
    tuples.extend(cyclic(v, &[short]).into_iter().take(period));
    tuples
}

/// The translates by the vectors of n bits, which are added by exclusive-or.
pub fn bitwise(v: usize, base: &[&[u8]]) -> Vec<Vec<u8>> {
    translates(v, base, |a, b| a ^ b)
}

/// The translates by pairs of numbers modulo `n`; the pair (x, y) has the number x·n + y.
pub fn by_pairs(n: usize, base: &[&[u8]]) -> Vec<Vec<u8>> {
    let add = |a: usize, b: usize| (a / n + b / n) % n * n + (a % n + b % n) % n;
    translates(n * n, base, add)
}

/// The squares modulo the prime `p`, zero apart.
pub fn squares(p: usize) -> Vec<u8> {
    powers(p, 2)
}

/// The n-th powers modulo the prime `p`, zero apart, in rising order.
pub fn powers(p: usize, n: u32) -> Vec<u8> {
    let mut found: Vec<u8> = (1..p).map(|x| (x.pow(n) % p) as u8).collect();
    found.sort();
    found.dedup();
    found
}

fn translates(v: usize, base: &[&[u8]], add: impl Fn(usize, usize) -> usize) -> Vec<Vec<u8>> {
    let mut tuples = Vec::new();
    for tuple in base {
        for by in 0..v {
            tuples.push(tuple.iter().map(|&d| add(d as usize, by) as u8).collect());
        }
    }
    tuples
}
