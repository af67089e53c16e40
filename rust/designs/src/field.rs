//! The finite fields of 2, 3, 4, 5, 7 and 8 elements.

/// A field; its elements are the numbers below its order.
#[derive(Clone, Copy)]
pub struct Field {
    /// How many elements it has.
    pub order: usize,
}

impl Field {
    /// The sum. In the fields of 4 and 8 elements the bits are coefficients modulo 2.
    pub fn add(self, a: usize, b: usize) -> usize {
        match self.order {
            4 | 8 => a ^ b,
            prime => (a + b) % prime,
        }
    }

    /// The product; x² = x + 1 in the field of 4 elements, x³ = x + 1 in that of 8.
    pub fn mul(self, a: usize, b: usize) -> usize {
        match self.order {
            4 => reduced(a, b, 2),
            8 => reduced(a, b, 3),
            prime => a * b % prime,
        }
    }

    /// The sum of the products of the coordinates.
    pub fn dot(self, a: &[usize], b: &[usize]) -> usize {
        let products = a.iter().zip(b).map(|(&x, &y)| self.mul(x, y));
        products.fold(0, |sum, product| self.add(sum, product))
    }

    /// The vectors of `n` coordinates; the first coordinate counts most.
    pub fn vectors(self, n: usize) -> Vec<Vec<usize>> {
        let digits = |number: usize| {
            let digit = |place: usize| number / self.order.pow((n - 1 - place) as u32) % self.order;
            (0..n).map(digit).collect()
        };
        (0..self.order.pow(n as u32)).map(digits).collect()
    }

    /// One vector for each line through zero: those whose first coordinate that is not zero is one.
    pub fn directions(self, n: usize) -> Vec<Vec<usize>> {
        let leads_with_one = |vector: &Vec<usize>| vector.iter().find(|&&x| x != 0) == Some(&1);
        self.vectors(n).into_iter().filter(leads_with_one).collect()
    }
}

/// The product of polynomials modulo 2 and modulo x^degree + x + 1.
fn reduced(a: usize, b: usize, degree: usize) -> usize {
    let mut product = 0;
    for bit in 0..degree {
        if b >> bit & 1 == 1 {
            product ^= a << bit;
        }
    }
    for bit in (degree..2 * degree).rev() {
        if product >> bit & 1 == 1 {
            product ^= (1 << degree | 0b11) << (bit - degree);
        }
    }
    product
}
