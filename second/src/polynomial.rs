//! A polynomial by its coefficients, constant term first.

use crate::desk::{LIMIT, TERMS};
use crate::modulus::Modulus;
use crate::refused::Refused;
use crate::residue::add;
use crate::series::product;
use std::fmt;

#[derive(Clone, Debug, PartialEq, Eq)]
pub struct Polynomial(pub [u32; TERMS]);

impl Polynomial {
    pub const ZERO: Polynomial = Polynomial([0; TERMS]);

    /// The polynomial written as 01 writes the worked ones: [96,3,9,1,6,0,1].
    pub fn of(coefficients: &[u32]) -> Polynomial {
        let mut f = Polynomial::ZERO;
        f.0[..coefficients.len()].copy_from_slice(coefficients);
        f
    }

    /// "The degree n is the largest i whose coefficient is not zero"; all zero has none.
    pub fn degree(&self) -> Option<usize> {
        (0..TERMS).rev().find(|&i| self.0[i] != 0)
    }

    /// Every line of the refusal table among 2, 3 and 4 that is true of this polynomial, in 01's order. The first one
    /// is the refusal given; the rest show that an input also tests the order.
    pub fn refusals_due(&self, m: Modulus, which: u32) -> Vec<Refused> {
        let mut due = Vec::new();
        if let Some(power) = self.0.iter().position(|&c| !m.is_above(c)) {
            due.push(Refused::coefficient(which, power as u32));
        }
        let degree = self.degree();
        if degree.is_none_or(|n| n < 2) {
            due.push(Refused::about(3, which));
        }
        if degree.is_some_and(|n| self.0[n] != 1) {
            due.push(Refused::about(4, which));
        }
        due
    }

    /// self(inner(x)) modulo m by Horner, or nothing when the product of the degrees is above the limit. Both have a
    /// degree and are reduced modulo m.
    pub fn compose(&self, inner: &Polynomial, m: Modulus) -> Option<Polynomial> {
        let (r, s) = (self.degree()?, inner.degree()?);
        if r * s > LIMIT {
            return None;
        }
        let mut sum = Polynomial::ZERO;
        for &coefficient in self.0[..=r].iter().rev() {
            sum = sum.times(inner, m);
            sum.0[0] = add(sum.0[0], coefficient, m);
        }
        Some(sum)
    }

    /// The product modulo m; its degree has to be within the limit.
    fn times(&self, other: &Polynomial, m: Modulus) -> Polynomial {
        let (Some(n), Some(k)) = (self.degree(), other.degree()) else {
            return Polynomial::ZERO;
        };
        Polynomial::of(&product(&self.0[..=n], &other.0[..=k], n + k + 1, m))
    }

    /// The coefficients up to the highest that is not zero.
    pub fn used(&self) -> &[u32] {
        &self.0[..self.degree().map_or(0, |n| n + 1)]
    }
}

impl fmt::Display for Polynomial {
    /// Up to the highest coefficient that is not zero, so nothing is hidden.
    fn fmt(&self, out: &mut fmt::Formatter) -> fmt::Result {
        match self.used() {
            [] => write!(out, "all coefficients zero"),
            used => write!(out, "{used:?}"),
        }
    }
}
