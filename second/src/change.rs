//! Changes of unit and origin by this program's own method: f(ax + b) is expanded with binomials.

use crate::decomposition::Pair;
use crate::modulus::Modulus;
use crate::polynomial::Polynomial;
use crate::residue::{add, inverse, multiply, power, reduced, shares_factor, subtract};

/// (a, b).
pub type Change = [u32; 2];

/// "a returned change is (1, 0)" after a refusal.
pub const IDENTITY: Change = [1, 0];

/// Whether No. 8 is due: "a or b is m or more, or a has no inverse".
pub fn refused(change: Change, m: Modulus) -> bool {
    let too_large = change.iter().any(|&number| !m.is_above(number));
    too_large || shares_factor(u64::from(change[0]), m)
}

/// Row j of Pascal's triangle modulo m, for every j from 0 to n.
fn binomials(n: usize, m: Modulus) -> Vec<Vec<u32>> {
    let mut rows = vec![vec![1]];
    for j in 1..=n {
        let above: &Vec<u32> = &rows[j - 1];
        let inside = (1..j).map(|i| add(above[i - 1], above[i], m));
        let row = [1].into_iter().chain(inside).chain([1]).collect();
        rows.push(row);
    }
    rows
}

/// 1, a, a^2, .. a^n.
fn powers(a: u32, n: usize, m: Modulus) -> Vec<u32> {
    let next = |last: &u32| Some(multiply(*last, a, m));
    std::iter::successors(Some(1), next).take(n + 1).collect()
}

/// f(ax + b): the coefficient of x^i is a^i times the sum of f_j·C(j, i)·b^(j-i).
fn substituted(f: &Polynomial, [a, b]: Change, m: Modulus) -> Polynomial {
    let used = f.used();
    let n = used.len() - 1;
    let (of_a, of_b, rows) = (powers(a, n, m), powers(b, n, m), binomials(n, m));
    let mut changed = Polynomial::ZERO;
    for i in 0..=n {
        let term = |j: usize| {
            let weight = multiply(rows[j][i], of_b[j - i], m);
            u128::from(u64::from(used[j]) * u64::from(weight))
        };
        let sum: u128 = (i..=n).map(term).sum();
        changed.0[i] = multiply(reduced(sum, m), of_a[i], m);
    }
    changed
}

/// f times a^(-exponent).
fn divided(mut f: Polynomial, a: u32, exponent: usize, m: Modulus) -> Polynomial {
    let one_ath = inverse(a, m).expect("a has an inverse");
    let factor = power(one_ath, exponent, m);
    for c in &mut f.0 {
        *c = multiply(*c, factor, m);
    }
    f
}

/// "(a, b) turns f of degree n into a^(-n)·f(ax + b)."
pub fn of_polynomial(f: &Polynomial, change: Change, m: Modulus) -> Polynomial {
    let n = f.degree().expect("f is taken");
    divided(substituted(f, change, m), change[0], n, m)
}

/// h(b), term by term.
fn value(h: &Polynomial, b: u32, m: Modulus) -> u32 {
    let terms = h.used().iter().zip(powers(b, h.used().len(), m));
    terms.fold(0, |sum, (&c, p)| add(sum, multiply(c, p, m), m))
}

/// h' = a^(-s)·(h(ax + b) - h(b)).
fn of_right(h: &Polynomial, change: Change, m: Modulus) -> Polynomial {
    let s = h.degree().expect("h is taken");
    let mut moved = substituted(h, change, m);
    moved.0[0] = subtract(moved.0[0], value(h, change[1], m), m);
    divided(moved, change[0], s, m)
}

/// The change that a part "hands to its left neighbour": (a^s, h(b)).
fn handed_left(h: &Polynomial, [a, b]: Change, m: Modulus) -> Change {
    let s = h.degree().expect("h is taken");
    [power(a, s, m), value(h, b, m)]
}

/// h' as above, and g' = a^(-n)·g(a^s·x + h(b)), which is g changed as a polynomial by what h hands over: a^(-n) is
/// (a^s)^(-r).
pub fn of_pair(g: &Polynomial, h: &Polynomial, change: Change, m: Modulus) -> Pair {
    let left = of_polynomial(g, handed_left(h, change, m), m);
    (left, of_right(h, change, m))
}

/// A chain's parts, left to right, with a change carried along them: "work from the right: each part but the leftmost
/// is treated as h is and hands the change (a^s, h(b)) to its left neighbour; the leftmost is changed as a
/// polynomial".
pub fn along(parts: &[Polynomial], mut change: Change, m: Modulus) -> Vec<Polynomial> {
    let Some((leftmost, others)) = parts.split_first() else {
        return Vec::new();
    };
    let mut from_the_right = Vec::new();
    for part in others.iter().rev() {
        from_the_right.push(of_right(part, change, m));
        change = handed_left(part, change, m);
    }
    from_the_right.push(of_polynomial(leftmost, change, m));
    from_the_right.reverse();
    from_the_right
}
