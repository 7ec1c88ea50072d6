//! The r-th root of f, read from the top: it is the right part as far as that goes, and its place s + 1 tells most polynomials
//! that have no pair. The columns and sums are the desk's; where plain Rust has `%` there, the desk multiplies by a reciprocal of
//! the modulus.

use crate::binomial::ROWS;
use crate::desk::{Polynomial, TERMS};
use crate::modulus::{multiply, strided_product, Modulus};

/// Room for the rows of any degrees: min(r, s + 1) rows of s + 2 places.
const WORDS: usize = 2 * TERMS;

/// T_i[k], counted from the top, is the coefficient of x^(is-k) in t^i, where h = x^s + t; row i stands from (i - 1)(s + 2) on.
/// The first row goes on for two places past h.
pub struct Root([u32; WORDS]);

/// Row r of the binomials as far as the place top, kept as -C(r, i)/r: so a column's last sum needs no other multiplication.
/// In place 1 is the inverse u of r itself.
fn binomials<M: Modulus>(row: &[u64], top: usize, u: u32, m: M) -> [u32; ROWS] {
    let mut b = [0; ROWS];
    b[1] = u;
    for i in 2..=top {
        b[i] = m.subtract(0, multiply(m.residue(row[i]), u, m));
    }
    b
}

impl Root {
    pub const EMPTY: Root = Root([0; WORDS]);

    /// Column k of as many rows after the first: each entry is one inner product of what stands before it.
    fn column<M: Modulus>(&mut self, w: usize, k: usize, rows: usize, m: M) {
        let t = &mut self.0;
        let mut at = k;
        for i in 0..rows {
            let x = m.inner_product(t, t, at, 1, k - i);
            at += w;
            t[at] = x;
        }
    }

    /// Works out the places 1 to s + 1 of the root of f, of degree n = r * s, by the inverse u of r and row r of the binomials.
    /// Whether a pair is still open: if f = g(h), place s + 1 is 0.
    pub fn find<M: Modulus>(&mut self, f: &Polynomial, [n, r, s]: [usize; 3], u: u32, row: &[u64], m: M) -> bool {
        let w = s + 2;
        let b = binomials(row, r.min(s + 1), u, m);
        for k in 1..w {
            let last = r.min(k);
            self.column(w, k, last - 1, m);
            self.0[k] = f[n - k];
            self.0[k] = strided_product(&b, &self.0, 1, last + 1, k, w, m);
        }
        self.0[s + 1] == 0
    }

    /// The right part, of degree s.
    pub fn right_part(&self, s: usize) -> Polynomial {
        let mut h = [0; TERMS];
        for k in 1..s {
            h[s - k] = self.0[k];
        }
        h[s] = 1;
        h
    }
}
