//! The forced pair of every f of a tiny size, by going through all g and h.

use super::{all, Size};
use crate::decomposition::part_degrees;
use crate::modulus::Modulus;
use crate::polynomial::Polynomial;
use crate::residue::shares_factor;
use std::collections::HashMap;
use std::sync::OnceLock;

/// The sizes whose forced pairs are known.
#[rustfmt::skip]
pub const FORCED: &[Size] = &[
    (3, 4), (5, 4), (7, 4), (9, 4), (2, 6), (3, 6), (4, 6), (5, 6), (3, 8), (2, 9), (2, 10), (2, 12), (2, 14), (2, 15),
];

/// The left degrees that fit and have an inverse.
pub fn left_degrees((m, n): Size) -> impl Iterator<Item = usize> {
    let inverted = move |r: &usize| !shares_factor(*r as u64, Modulus::of_word(m));
    part_degrees(n).filter(inverted)
}

/// A size, the left degree, and the coefficients that force a pair there.
type Forcing = (Size, usize, Vec<u32>);

/// What the forced pair of f at r composes to.
pub fn composed(f: &Polynomial, r: usize, m: Modulus) -> &'static Polynomial {
    static WHOLES: OnceLock<HashMap<Forcing, Polynomial>> = OnceLock::new();
    let n = f.degree().expect("f is taken");
    let wholes = WHOLES.get_or_init(all_wholes);
    let found = wholes.get(&forcing(f, (m.word(), n), r));
    found.expect("there are as many pairs as there is to force them")
}

/// The leading terms, from x^n down to x^(n-s+1), which h^r alone reaches, force h; the coefficients of all x^(is)
/// then force g.
fn forcing(f: &Polynomial, size: Size, r: usize) -> Forcing {
    let n = size.1;
    let s = n / r;
    let forces = |k: &usize| *k > n - s || k.is_multiple_of(s);
    let coefficients = (0..=n).filter(forces).map(|k| f.0[k]);
    (size, r, coefficients.collect())
}

fn all_wholes() -> HashMap<Forcing, Polynomial> {
    let mut wholes = HashMap::new();
    for &size in FORCED {
        for r in left_degrees(size) {
            let (m, s) = (size.0, size.1 / r);
            for h in all((m, s)).filter(|h| h.0[0] == 0) {
                for g in all((m, r)) {
                    let whole = g.compose(&h, Modulus::of_word(m)).expect("tiny degrees");
                    let other = wholes.insert(forcing(&whole, size, r), whole);
                    assert!(other.is_none(), "one pair only is forced");
                }
            }
        }
    }
    wholes
}
