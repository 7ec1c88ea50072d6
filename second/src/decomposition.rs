//! Left part, pair and chain by this program's own methods: the left part by the triangular system (1) of 000 and a
//! composition in full, the right part as a root of the reversed polynomial. Every polynomial here is taken, that is
//! not refused by 1 to 4.

use crate::modulus::Modulus;
use crate::polynomial::Polynomial;
use crate::residue::{reduced, subtract};
use crate::series::{product, root};
use std::iter;

/// g and h, the left part and the right one.
pub type Pair = (Polynomial, Polynomial);

/// The g with f = g(h), if there is one, for any monic h whose degree divides that of f: the forced one, if it
/// composes to f. "Compute g∘h and compare with f" (000, Algorithm 3.4): that is at every power of x.
pub fn left_part(f: &Polynomial, h: &Polynomial, m: Modulus) -> Option<Polynomial> {
    let s = h.degree().expect("h is taken");
    let n = f.degree().expect("f is taken");
    let powers = powers(h, n / s, m);
    let g = forced_left_part(f, &powers, s, m);
    let agree = |k: usize| sum(&g, &powers, k, m) == f.0[k];
    (0..=n).all(agree).then_some(g)
}

/// The monic g for which g(h) and f agree at every power x^(is).
///
/// There the coefficient of f is the sum of g_j times that of h^j (000, system (1)). Below h^i no power of h comes up
/// to x^(is), and in h^i it has 1: so g_i is what the g_j above it leave of the coefficient of f, from the top down.
/// Nothing is divided by, and m may be any.
fn forced_left_part(f: &Polynomial, powers: &[Vec<u32>], s: usize, m: Modulus) -> Polynomial {
    let mut g = Polynomial::ZERO;
    for i in (0..powers.len()).rev() {
        g.0[i] = subtract(f.0[i * s], sum(&g, powers, i * s, m), m);
    }
    g
}

/// The coefficient of x^k in the sum of the g_j·h^j.
fn sum(g: &Polynomial, powers: &[Vec<u32>], k: usize, m: Modulus) -> u32 {
    let terms = powers.iter().zip(&g.0);
    let reach = terms.filter_map(|(p, &c)| Some(u128::from(*p.get(k)?) * u128::from(c)));
    reduced(reach.sum(), m)
}

/// h^0 to h^r, each in full.
fn powers(h: &Polynomial, r: usize, m: Modulus) -> Vec<Vec<u32>> {
    let h = h.used();
    let next = |last: &Vec<u32>| Some(product(last, h, last.len() + h.len() - 1, m));
    iter::successors(Some(vec![1]), next).take(r + 1).collect()
}

/// The degrees that a part of a pair may have, from the smallest up: d divides n, and d and n/d are at least 2.
pub fn part_degrees(n: usize) -> impl Iterator<Item = usize> {
    (2..=n / 2).filter(move |d| n.is_multiple_of(*d))
}

/// The only h with h(0) = 0 that can be the right part of f at r.
///
/// f = g(h) and h^r have the same coefficients from x^n down to x^(n-s+1), for the next power of h in g has degree n
/// - s. Read backwards, from the highest coefficient on, f and h are series that begin with 1, and so the first s
/// coefficients of h are those of the r-th root of f.
fn right_part(f: &Polynomial, r: usize, s: usize, m: Modulus) -> Polynomial {
    let backwards: Vec<u32> = f.used().iter().rev().copied().collect();
    let mut h = Polynomial::ZERO;
    for (k, &c) in root(&backwards, r, s, m).iter().enumerate() {
        h.0[s - k] = c;
    }
    h
}

/// The only normal pair that f can have at r, whether it composes to f or not; r divides the degree of f and has an
/// inverse modulo m.
pub fn forced_pair(f: &Polynomial, r: usize, m: Modulus) -> Pair {
    let s = f.degree().expect("f is taken") / r;
    let h = right_part(f, r, s, m);
    let g = forced_left_part(f, &powers(&h, r, m), s, m);
    (g, h)
}

/// The normal pair of f at r, if there is one; r divides the degree of f and has an inverse modulo m.
pub fn pair(f: &Polynomial, r: usize, m: Modulus) -> Option<Pair> {
    let n = f.degree().expect("f is taken");
    let h = right_part(f, r, n / r, m);
    let g = left_part(f, &h, m)?;
    // "The forced pair may still fail to compose to f": the left part has seen to it. That it has is worth the time
    // here, where nothing is proved.
    assert!(g.compose(&h, m).as_ref() == Some(f), "own pair is no pair");
    Some((g, h))
}

/// A complete chain.
#[derive(Debug, PartialEq, Eq)]
pub struct Chain {
    /// Left to right.
    pub parts: Vec<Polynomial>,
    pub tries: usize,
}

/// "The price of a chain is the sum over its parts"; request No. 1: "A monic polynomial of degree n costs n - 1
/// multiplications."
pub fn price(parts: &[Polynomial]) -> usize {
    let degrees = parts.iter().filter_map(Polynomial::degree);
    degrees.map(|n| n - 1).sum()
}

/// The chain of f, where `pair` gives the normal pair at r if there is one.
///
/// "Try s = 2, 3, .. up to n/2, each s that divides n, the last included. At the first s where f splits, h is the
/// rightmost part, and the same is done afresh with g, from s = 2 again."
pub fn chain(f: &Polynomial, pair: impl Fn(&Polynomial, usize) -> Option<Pair>) -> Chain {
    let mut rest = f.clone();
    let mut from_the_right = Vec::new();
    let mut tries = 0;
    while let Some((g, h)) = first_split(&rest, &pair, &mut tries) {
        from_the_right.push(h);
        rest = g;
    }
    from_the_right.push(rest);
    from_the_right.reverse();
    Chain { parts: from_the_right, tries }
}

fn first_split(f: &Polynomial, pair: impl Fn(&Polynomial, usize) -> Option<Pair>, tries: &mut usize) -> Option<Pair> {
    let n = f.degree().expect("a part has a degree");
    part_degrees(n).find_map(|s| {
        *tries += 1;
        pair(f, n / s)
    })
}
