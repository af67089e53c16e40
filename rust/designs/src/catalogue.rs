//! The catalogue. A name gives v, k and lambda where it is not a complete design.

use crate::complete::complete;
use crate::difference::{bitwise, by_pairs, cyclic, cyclic_with_short, powers, squares};
use crate::geometry::{affine_hyperplanes, affine_lines, projective_hyperplanes, projective_lines};
use crate::ring::ring;
use crate::Design;

/// Figure 2 of source document 001, read by columns.
const OF_001: &str =
    "012 014 016 024 025 034 035 036 056 123 125 135 136 145 146 234 236 246 256 345 456";

/// Every design. Each is inside document 01's limits; a test counts that each is balanced.
pub fn catalogue() -> Vec<Design> {
    let mut all = complete_designs();
    all.extend(planes());
    all.extend(spaces());
    all.extend(symmetric());
    all.extend(families());
    all.extend(complements());
    all.extend(at_the_limits());
    all
}

fn complete_designs() -> Vec<Design> {
    let sizes = [
        (2, 2),
        (4, 3),
        (5, 4),
        (3, 2),
        (4, 4),
        (5, 2),
        (5, 3),
        (6, 3),
        (8, 4),
    ];
    let larger = [(16, 15), (17, 16), (16, 16), (13, 2)];
    let all = |&(v, k): &(usize, usize)| Design::new(&format!("all {k} of {v}"), v, complete(v, k));
    sizes.iter().chain(&larger).map(all).collect()
}

fn planes() -> Vec<Design> {
    let mut planes = Vec::new();
    for order in [2, 3, 4, 5, 7] {
        let name = format!("projective plane of order {order}");
        let points = order * order + order + 1;
        planes.push(Design::new(&name, points, projective_hyperplanes(2, order)));
    }
    for order in [2, 3, 4, 5, 7, 8] {
        let name = format!("affine plane of order {order}");
        planes.push(Design::new(&name, order * order, affine_lines(2, order)));
    }
    planes
}

fn spaces() -> Vec<Design> {
    vec![
        Design::new("(15,3,1) lines", 15, projective_lines(3, 2)),
        Design::new("(31,3,1) lines", 31, projective_lines(4, 2)),
        Design::new("(40,4,1) lines", 40, projective_lines(3, 3)),
        Design::new("(40,13,4) planes", 40, projective_hyperplanes(3, 3)),
        Design::new("(31,15,7) solids", 31, projective_hyperplanes(4, 2)),
        Design::new("(27,3,1) lines", 27, affine_lines(3, 3)),
        Design::new("(27,9,4) planes", 27, affine_hyperplanes(3, 3)),
        Design::new("(64,4,1) lines", 64, affine_lines(3, 4)),
        Design::new("(64,16,5) planes", 64, affine_hyperplanes(3, 4)),
        Design::new("(8,4,3) planes", 8, affine_hyperplanes(3, 2)),
        Design::new("(16,8,7) solids", 16, affine_hyperplanes(4, 2)),
        Design::new("(32,16,15) hyperplanes", 32, affine_hyperplanes(5, 2)),
    ]
}

fn symmetric() -> Vec<Design> {
    vec![
        Design::new("(11,5,2) biplane", 11, cyclic(11, &[&squares(11)])),
        Design::new("(16,6,2) biplane", 16, bitwise(16, &[&[0, 1, 2, 4, 8, 15]])),
        Design::new("(37,9,2) biplane", 37, cyclic(37, &[&powers(37, 4)])),
        Design::new("(15,7,3)", 15, cyclic(15, &[&[0, 1, 2, 4, 5, 8, 10]])),
        Design::new("(19,9,4) squares", 19, cyclic(19, &[&squares(19)])),
        Design::new("(23,11,5) squares", 23, cyclic(23, &[&squares(23)])),
        Design::new(
            "(57,8,1) cyclic",
            57,
            cyclic(57, &[&[1, 6, 7, 9, 19, 38, 42, 49]]),
        ),
    ]
}

/// Difference families; those with v 21 are designs 1 (with the two tuples that make it balanced), 2, 3 and 4 of the
/// appendix of source document 004.
fn families() -> Vec<Design> {
    let one = cyclic_with_short(21, &[&[0, 1, 3], &[0, 4, 12], &[0, 16, 10]], &[0, 7, 14], 7);
    let two: [&[u8]; 5] = [
        &[0, 2, 3, 7],
        &[0, 3, 5, 9],
        &[0, 1, 7, 11],
        &[0, 2, 8, 11],
        &[0, 1, 9, 14],
    ];
    let four: [&[u8]; 2] = [&[0, 2, 10, 15, 19, 20], &[0, 3, 7, 9, 10, 16]];
    let of_25: [&[u8]; 2] = [&[0, 1, 5, 12], &[0, 2, 10, 24]];
    let of_37: [&[u8]; 3] = [&[0, 1, 3, 24], &[0, 10, 18, 30], &[0, 4, 26, 32]];
    let of_41: [&[u8]; 2] = [&[0, 1, 4, 11, 29], &[0, 2, 8, 17, 22]];
    vec![
        Design::new("(7,3,3) of 001", 7, digits(OF_001)),
        Design::new("(21,3,1) of 004", 21, one),
        Design::new("(21,4,3) of 004", 21, cyclic(21, &two)),
        Design::new("(21,5,1) of 004", 21, cyclic(21, &[&[3, 6, 7, 12, 14]])),
        Design::new("(21,6,3) of 004", 21, cyclic(21, &four)),
        Design::new("(13,3,1)", 13, cyclic(13, &[&[0, 1, 4], &[0, 2, 7]])),
        Design::new("(25,4,1)", 25, by_pairs(5, &of_25)),
        Design::new("(37,4,1)", 37, cyclic(37, &of_37)),
        Design::new("(41,5,1)", 41, cyclic(41, &of_41)),
        Design::new("(7,4,12) ring", 7, ring(7, 4)),
        Design::new("(19,5,20) ring", 19, ring(19, 5)),
    ]
}

fn complements() -> Vec<Design> {
    let plane = |order| {
        Design::new(
            "plane",
            order * order + order + 1,
            projective_hyperplanes(2, order),
        )
    };
    let squared = |p| Design::new("squares", p, cyclic(p, &[&squares(p)]));
    vec![
        plane(2).complement("(7,4,2) biplane"),
        plane(3).complement("(13,9,6)"),
        plane(4).complement("(21,16,12)"),
        squared(11).complement("(11,6,3)"),
        squared(19).complement("(19,10,5)"),
        squared(23).complement("(23,12,6)"),
        Design::new("lines", 9, affine_lines(2, 3)).complement("(9,6,5)"),
    ]
}

/// b·k is 2,048 or just below it. It is 2,048 with v = k only: v - 1 then divides (k - 1)·r, and v, k and r are powers
/// of two.
fn at_the_limits() -> Vec<Design> {
    let whole = |v: usize| Design::new("whole", v, complete(v, v));
    vec![
        whole(2).repeated("0 1, 1,024 times", 1024),
        whole(4)
            .repeated("all 4 of 4, 512 times, turned", 512)
            .turned(),
        whole(16)
            .repeated("all 16 of 16, 128 times, turned", 128)
            .turned(),
        Design::new("A", 4, complete(4, 3)).repeated("A 170 times", 170),
        Design::new("plane", 7, projective_hyperplanes(2, 2)).repeated("(7,3,97)", 97),
        Design::new("all 2 of 45", 45, complete(45, 2)),
        Design::new("(63,3,1) lines", 63, projective_lines(5, 2)),
        Design::new("(13,13,156) ring", 13, ring(13, 13)),
        Design::new("(17,7,42) ring", 17, ring(17, 7)),
        Design::new("(23,4,12) ring", 23, ring(23, 4)),
        Design::new("(31,2,2) ring", 31, ring(31, 2)),
        Design::new("(64,8,1) planes, 3 times", 64, affine_lines(2, 8)).repeated("(64,8,3)", 3),
    ]
}

/// The tuples whose disks are single digits.
fn digits(words: &str) -> Vec<Vec<u8>> {
    let tuple = |word: &str| word.bytes().map(|digit| digit - b'0').collect();
    words.split(' ').map(tuple).collect()
}
