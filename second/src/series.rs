//! Polynomials as lists of coefficients, constant term first, cut off after so many of them: products, powers,
//! inverses and roots.

use crate::modulus::Modulus;
use crate::residue::{inverse as inverse_of, multiply, reduced, subtract};

/// The first `keep` coefficients of the product.
pub fn product(a: &[u32], b: &[u32], keep: usize, m: Modulus) -> Vec<u32> {
    (0..keep).map(|k| column(a, b, k, m)).collect()
}

/// Coefficient k of the product: the sum of a_i·b_(k-i), in 128 bits, where many products of two words have room, and
/// reduced once at the end.
fn column(a: &[u32], b: &[u32], k: usize, m: Modulus) -> u32 {
    let first = (k + 1).saturating_sub(b.len());
    let end = a.len().min(k + 1);
    let term = |i: usize| u128::from(u64::from(a[i]) * u64::from(b[k - i]));
    let sum: u128 = (first..end).map(term).sum();
    reduced(sum, m)
}

/// The first `keep` coefficients of a power, by halving the exponent.
pub fn power(base: &[u32], exponent: usize, keep: usize, m: Modulus) -> Vec<u32> {
    if exponent == 0 {
        return product(&[1], &[1], keep, m);
    }
    let root = power(base, exponent / 2, keep, m);
    let square = product(&root, &root, keep, m);
    if exponent.is_multiple_of(2) {
        return square;
    }
    product(&square, base, keep, m)
}

/// 1/p to `keep` coefficients, where p begins with 1. Coefficient by coefficient, from p·(1/p) = 1: what is divided
/// by is always 1.
fn inverse(p: &[u32], keep: usize, m: Modulus) -> Vec<u32> {
    let mut found = vec![1];
    for k in 1..keep {
        found.push(subtract(0, column(p, &found, k, m), m));
    }
    found
}

/// The r-th root of p to `keep` coefficients, the one that begins with 1; p begins with 1 too, and r has an inverse
/// modulo m.
///
/// Newton's iteration for y^r - p = 0: from y with k right coefficients comes y - (y^r - p)/(r·y^(r-1)) with 2k. Only
/// r and series that begin with 1 are divided by, so m need not be prime and may be smaller than r.
pub fn root(p: &[u32], r: usize, keep: usize, m: Modulus) -> Vec<u32> {
    let one_rth = inverse_of(reduced(r as u128, m), m).expect("r has an inverse");
    let mut found = vec![1];
    while found.len() < keep {
        let known = keep.min(2 * found.len());
        found = newton_step(&found, p, r, one_rth, known, m);
    }
    found
}

fn newton_step(y: &[u32], p: &[u32], r: usize, one_rth: u32, known: usize, m: Modulus) -> Vec<u32> {
    let slope = power(y, r - 1, known, m);
    let error = difference(&product(&slope, y, known, m), p, known, m);
    let step = product(&error, &inverse(&slope, known, m), known, m);
    let step: Vec<u32> = step.iter().map(|&c| multiply(c, one_rth, m)).collect();
    difference(y, &step, known, m)
}

/// The first `keep` coefficients of a - b; a list may be shorter than that.
fn difference(a: &[u32], b: &[u32], keep: usize, m: Modulus) -> Vec<u32> {
    let at = |list: &[u32], k: usize| list.get(k).copied().unwrap_or(0);
    (0..keep).map(|k| subtract(at(a, k), at(b, k), m)).collect()
}
