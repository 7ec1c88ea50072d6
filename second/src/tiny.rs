//! Everything of a tiny size: all monic polynomials of a low degree modulo a small m, and their pairs and left parts
//! by going through all g and all h. No theorem stands behind these answers, only the definition of a pair.

pub mod chains;
pub mod forced;
pub mod texts;

use crate::decomposition::{part_degrees, Pair};
use crate::inputs::choose;
use crate::modulus::Modulus;
use crate::polynomial::Polynomial;
use crate::residue::shares_factor;
use std::collections::HashMap;
use std::sync::OnceLock;

/// The word of a modulus, and a degree.
pub type Size = (u32, usize);

/// The sizes whose pairs are known. Where a degree can be split twice, its divisors stand here too.
#[rustfmt::skip]
pub const SPLIT: &[Size] = &[
    (2, 4), (3, 4), (4, 4), (5, 4), (6, 4), (7, 4), (9, 4), (15, 4), (2, 6), (3, 6), (4, 6), (5, 6), (6, 6),
    (2, 8), (3, 8), (2, 9), (4, 9), (2, 10), (3, 10), (2, 12), (2, 14), (2, 15),
];

/// The sizes whose left parts are known, for every h.
pub const LEFT_PART: &[Size] = &[(2, 4), (3, 4), (4, 4), (5, 4), (6, 4), (2, 6), (3, 6), (2, 8), (2, 9)];

/// How many monic polynomials there are of that size: m^n.
pub const fn count((m, n): Size) -> u64 {
    (m as u64).pow(n as u32)
}

/// The monic polynomial with that number: its other coefficients are the digits of the number to the base m.
pub fn monic((m, n): Size, mut number: u64) -> Polynomial {
    let mut f = Polynomial::ZERO;
    for place in &mut f.0[..n] {
        *place = choose(&mut number, u64::from(m)) as u32;
    }
    f.0[n] = 1;
    f
}

fn all(size: Size) -> impl Iterator<Item = Polynomial> {
    (0..count(size)).map(move |number| monic(size, number))
}

// The tables. Under f stand its modulus and coefficients.

type Pairs = HashMap<(u32, Vec<u32>, usize), Pair>;
type LeftParts = HashMap<(u32, Vec<u32>, Vec<u32>), Polynomial>;

/// The normal pair of f at r, if there is one; r has an inverse modulo m.
pub fn pair(f: &Polynomial, r: usize, m: Modulus) -> Option<Pair> {
    static PAIRS: OnceLock<Pairs> = OnceLock::new();
    let n = f.degree().expect("f is taken");
    assert!(SPLIT.contains(&(m.word(), n)), "not a size that is known");
    let pairs = PAIRS.get_or_init(all_pairs);
    pairs.get(&(m.word(), f.used().to_vec(), r)).cloned()
}

fn all_pairs() -> Pairs {
    let mut pairs = HashMap::new();
    for &(m, n) in SPLIT {
        let with_inverse = |r: &usize| !shares_factor(*r as u64, Modulus::of_word(m));
        for r in part_degrees(n).filter(with_inverse) {
            for h in all((m, n / r)).filter(|h| h.0[0] == 0) {
                for g in all((m, r)) {
                    let key = (m, composed(&g, &h, m), r);
                    let other = pairs.insert(key, (g, h.clone()));
                    assert!(other.is_none(), "the coefficients of h are forced");
                }
            }
        }
    }
    pairs
}

/// The left part of f for this h, if there is one.
pub fn left_part(f: &Polynomial, h: &Polynomial, m: Modulus) -> Option<Polynomial> {
    static LEFT_PARTS: OnceLock<LeftParts> = OnceLock::new();
    let n = f.degree().expect("f is taken");
    assert!(LEFT_PART.contains(&(m.word(), n)), "not a size that is known");
    let left_parts = LEFT_PARTS.get_or_init(all_left_parts);
    let key = (m.word(), f.used().to_vec(), h.used().to_vec());
    left_parts.get(&key).cloned()
}

fn all_left_parts() -> LeftParts {
    let mut left_parts = HashMap::new();
    for &(m, n) in LEFT_PART {
        for s in part_degrees(n) {
            for h in all((m, s)) {
                for g in all((m, n / s)) {
                    let key = (m, composed(&g, &h, m), h.used().to_vec());
                    let other = left_parts.insert(key, g);
                    assert!(other.is_none(), "at most one monic g has f = g(h)");
                }
            }
        }
    }
    left_parts
}

fn composed(g: &Polynomial, h: &Polynomial, word: u32) -> Vec<u32> {
    let f = g.compose(h, Modulus::of_word(word)).expect("tiny degrees");
    f.used().to_vec()
}
