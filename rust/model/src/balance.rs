//! What makes a design balanced: rules 6, 8 and 9, each by counting.

/// Rule 6.
pub fn has_a_disk_twice(tuple: &[u8]) -> bool {
    (0..tuple.len()).any(|place| tuple[..place].contains(&tuple[place]))
}

/// Rule 8: in how many tuples each disk stands, where that is the same for all; a disk in none counts, too.
pub fn times_of_each_disk<'a>(v: u64, tuples: impl Iterator<Item = &'a [u8]>) -> Option<u64> {
    let mut times = [0; 64];
    for tuple in tuples {
        for &disk in tuple {
            times[disk as usize] += 1;
        }
    }
    let times = &times[..v as usize];
    times.iter().all(|&n| n == times[0]).then_some(times[0])
}

/// Rule 9: in how many tuples each pair of disks stands, where that is the same for all.
pub fn times_of_each_pair<'a>(v: u64, tuples: impl Iterator<Item = &'a [u8]>) -> Option<u64> {
    let mut times = [[0; 64]; 64];
    for tuple in tuples {
        for (place, &one) in tuple.iter().enumerate() {
            for &other in &tuple[..place] {
                times[one.max(other) as usize][one.min(other) as usize] += 1;
            }
        }
    }
    let lambda = times[1][0];
    let mut pairs = (0..v as usize).flat_map(|one| times[one][..one].iter());
    pairs.all(|&n| n == lambda).then_some(lambda)
}
