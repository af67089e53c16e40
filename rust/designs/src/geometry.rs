//! Designs from finite geometry: the disks are points, the tuples lines or hyperplanes.

use crate::field::Field;
use std::collections::BTreeSet;

/// The lines of the affine space of `n` dimensions over the field of `order` elements.
pub fn affine_lines(n: usize, order: usize) -> Vec<Vec<u8>> {
    let field = Field { order };
    let points = field.vectors(n);
    let mut lines = BTreeSet::new();
    for start in &points {
        for direction in field.directions(n) {
            let on = |point: &Vec<usize>| {
                (0..order).any(|by| *point == combined(field, [1, by], start, &direction))
            };
            lines.insert(numbers(&points, on));
        }
    }
    lines.into_iter().collect()
}

/// The hyperplanes of the same space.
pub fn affine_hyperplanes(n: usize, order: usize) -> Vec<Vec<u8>> {
    let field = Field { order };
    let points = field.vectors(n);
    let mut planes = Vec::new();
    for normal in field.directions(n) {
        for value in 0..order {
            planes.push(numbers(&points, |point| field.dot(&normal, point) == value));
        }
    }
    planes
}

/// The lines of the projective space of `n` dimensions over the field of `order` elements.
pub fn projective_lines(n: usize, order: usize) -> Vec<Vec<u8>> {
    let field = Field { order };
    let points = field.directions(n + 1);
    let weights = field.vectors(2);
    let mut lines = BTreeSet::new();
    for (number, one) in points.iter().enumerate() {
        for other in &points[..number] {
            let on = |point: &Vec<usize>| {
                weights
                    .iter()
                    .any(|w| *point == combined(field, [w[0], w[1]], one, other))
            };
            lines.insert(numbers(&points, on));
        }
    }
    lines.into_iter().collect()
}

/// The hyperplanes of the same space; with `n` 2 these are the lines of a projective plane.
pub fn projective_hyperplanes(n: usize, order: usize) -> Vec<Vec<u8>> {
    let field = Field { order };
    let points = field.directions(n + 1);
    let plane = |normal: &Vec<usize>| numbers(&points, |point| field.dot(normal, point) == 0);
    points.iter().map(plane).collect()
}

/// The sum of two vectors, each times its weight.
fn combined(field: Field, weights: [usize; 2], a: &[usize], b: &[usize]) -> Vec<usize> {
    let sum =
        |(&x, &y): (&usize, &usize)| field.add(field.mul(weights[0], x), field.mul(weights[1], y));
    a.iter().zip(b).map(sum).collect()
}

/// The numbers of the points that lie on something.
fn numbers(points: &[Vec<usize>], on: impl Fn(&Vec<usize>) -> bool) -> Vec<u8> {
    let lying = (0..points.len()).filter(|&number| on(&points[number]));
    lying.map(|number| number as u8).collect()
}
