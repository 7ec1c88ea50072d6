//! Polynomials of any degree as lists of terms, which is all that a text of few terms needs: a high power is one of
//! them.

use crate::desk::LIMIT;
use crate::modulus::Modulus;
use crate::polynomial::Polynomial;
use crate::residue::{add, multiply, reduced, subtract};
use std::cmp::Ordering;

/// Powers of x, the highest first, with their coefficients modulo m, none of which is zero.
#[derive(Clone, Debug, PartialEq, Eq)]
pub struct Terms(Vec<(usize, u32)>);

impl Terms {
    /// One term; none if it is zero modulo m.
    pub fn one(number: u64, power: usize, m: Modulus) -> Terms {
        let coefficient = reduced(u128::from(number), m);
        Terms(Vec::from_iter((coefficient != 0).then_some((power, coefficient))))
    }

    /// All zero has none.
    pub fn degree(&self) -> Option<usize> {
        self.0.first().map(|&(power, _)| power)
    }

    pub fn too_high(&self) -> bool {
        self.degree() > Some(LIMIT)
    }

    /// Without what is above the limit.
    pub fn cut_off(mut self) -> Terms {
        self.0.retain(|&(power, _)| power <= LIMIT);
        self
    }

    pub fn plus(&self, other: &Terms, m: Modulus) -> Terms {
        let (mut a, mut b) = (self.0.iter().peekable(), other.0.iter().peekable());
        let mut sum = Vec::with_capacity(self.0.len() + other.0.len());
        while let (Some(&&left), Some(&&right)) = (a.peek(), b.peek()) {
            match left.0.cmp(&right.0) {
                Ordering::Greater => sum.extend(a.next()),
                Ordering::Less => sum.extend(b.next()),
                Ordering::Equal => {
                    let both = add(left.1, right.1, m);
                    sum.extend((both != 0).then_some((left.0, both)));
                    a.next();
                    b.next();
                }
            }
        }
        sum.extend(a.chain(b));
        Terms(sum)
    }

    pub fn negative(mut self, m: Modulus) -> Terms {
        for (_, coefficient) in &mut self.0 {
            *coefficient = subtract(0, *coefficient, m);
        }
        self
    }

    /// By one term after the other, those of the shorter list.
    pub fn times(&self, other: &Terms, m: Modulus) -> Terms {
        let (short, long) = match self.0.len() < other.0.len() {
            true => (self, other),
            false => (other, self),
        };
        let by = |&term: &(usize, u32)| long.by_term(term, m);
        let products = short.0.iter().map(by);
        products.reduce(|sum, product| sum.plus(&product, m)).unwrap_or(Terms(Vec::new()))
    }

    fn by_term(&self, (power, coefficient): (usize, u32), m: Modulus) -> Terms {
        let times = |&(i, c): &(usize, u32)| (i + power, multiply(c, coefficient, m));
        let products = self.0.iter().map(times);
        Terms(products.filter(|&(_, c)| c != 0).collect())
    }

    /// Where nothing is above the limit.
    pub fn polynomial(&self) -> Polynomial {
        let mut f = Polynomial::ZERO;
        for &(power, coefficient) in &self.0 {
            f.0[power] = coefficient;
        }
        f
    }
}
