//! The desk's methods in plain Rust: the same loops and the same sums, with indices checked as Rust checks them.

use crate::binomial::{row_for, start};
use crate::desk::{Polynomial, TERMS};
use crate::modulus::{invert, modulus, multiply, two_products, Below, Modulus, Words};
use crate::root::Root;

pub fn degree(f: &[u32]) -> usize {
    f.iter().rposition(|&c| c != 0).unwrap_or(0)
}

/// p becomes c + h·p, of a degree up to d: in place, from the top power down.
pub fn step<M: Modulus>(p: &mut [u32], c: u32, h: &[u32], s: usize, d: usize, m: M) {
    for k in (1..=d).rev() {
        p[k] = m.inner_product(h, p, k, 0, k.min(s) + 1);
    }
    p[0] = two_products(h[0], p[0], c, 1, m);
}

/// p divided by h, of degree s, in place: the remainder, and the quotient above it.
fn divide<M: Modulus>(p: &mut [u32], h: &[u32], s: usize, m: M) {
    let mut i = p.len();
    while i != 0 {
        let k = i + s;
        i -= 1;
        let lo = k - k.min(p.len());
        let x = m.inner_product(h, p, i + s, lo, s.min(i + 1));
        p[i] = m.subtract(p[i], x);
    }
}

fn is_constant(p: &[u32]) -> bool {
    p[1..].iter().all(|&c| c == 0)
}

fn digit<M: Modulus>(p: &mut [u32], h: &[u32], s: usize, m: M) -> bool {
    divide(p, h, s, m);
    is_constant(&p[..s])
}

fn digits<M: Modulus>(p: &mut [u32], h: &[u32], s: usize, m: M) -> bool {
    let mut at = 0;
    while s < p.len() - at {
        if !digit(&mut p[at..], h, s, m) {
            return false;
        }
        at += s;
    }
    is_constant(&p[at..])
}

/// The lowest k digits of p at once, by b = h^k.
fn block<M: Modulus>(p: &mut [u32], h: &[u32], b: &[u32], k: usize, s: usize, m: M) -> bool {
    let w = k * s;
    divide(p, b, w, m);
    let top = w - s;
    is_constant(&p[top..w]) && digits(&mut p[..top + 1], h, s, m)
}

fn blocks<M: Modulus>(p: &mut [u32], h: &[u32], b: &[u32], k: usize, s: usize, m: M) -> bool {
    let w = k * s;
    let mut at = 0;
    while w < p.len() - at {
        if !block(&mut p[at..], h, b, k, s, m) {
            return false;
        }
        at += w;
    }
    digits(&mut p[at..], h, s, m)
}

/// b, which is h, becomes h^k.
fn raise<M: Modulus>(b: &mut [u32], h: &[u32], k: usize, s: usize, m: M) {
    for i in 1..k {
        step(b, 0, h, s, (i + 1) * s, m);
    }
}

/// How many of r digits are taken at once.
fn at_once(r: usize) -> usize {
    match r {
        0..5 => 1,
        5..12 => 2,
        12..32 => 3,
        _ => 5,
    }
}

/// All digits of p, of degree r * s, in powers of h; whether they are constants.
fn expand<M: Modulus>(p: &mut [u32], h: &Polynomial, r: usize, s: usize, m: M) -> bool {
    if !digit(p, h, s, m) {
        return false;
    }
    let k = at_once(r);
    let mut b = *h;
    raise(&mut b, h, k, s, m);
    blocks(&mut p[s..], h, &b, k, s, m)
}

fn constants(a: &[u32], r: usize, s: usize) -> Polynomial {
    let mut g = [0; TERMS];
    for i in 0..=r {
        g[i] = a[i * s];
    }
    g
}

fn left_part<M: Modulus>(f: &Polynomial, h: &Polynomial, n: usize, r: usize, s: usize, m: M) -> Option<Polynomial> {
    let mut a = *f;
    expand(&mut a[..n + 1], h, r, s, m).then(|| constants(&a, r, s))
}

/// The forced pair of f at the left degree r and the right degree s, by the inverse u of r and row r of the binomials. Nothing is
/// divided where the root of f already says no.
fn forced<M: Modulus>(
    f: &Polynomial,
    [n, r, s]: [usize; 3],
    u: u32,
    row: &[u64],
    m: M,
) -> Option<(Polynomial, Polynomial)> {
    let mut root = Root::EMPTY;
    if !root.find(f, [n, r, s], u, row, m) {
        return None;
    }
    let h = root.right_part(s);
    left_part(f, &h, n, r, s, m).map(|g| (g, h))
}

/// The pair at the right degree s by the inverse v of n: that of r = n / s is s * v, so a round over all s wants one inverse.
pub fn split_by<M: Modulus>(
    f: &Polynomial,
    n: usize,
    s: usize,
    v: u32,
    table: &[u64],
    m: M,
) -> Option<(Polynomial, Polynomial)> {
    let (r, u) = (n / s, multiply(v, s as u32, m));
    forced(f, [n, r, s], u, &table[start(r)..], m)
}

/// The degree of a polynomial that the checks 1 to 4 accept, or the number of the refusal.
pub fn check(m: u32, f: &Polynomial) -> Result<usize, u32> {
    if m == 1 || 2147483647 < m {
        return Err(1);
    }
    if m != 0 && f.iter().any(|&c| c >= m) {
        return Err(2);
    }
    match degree(f) {
        0..2 => Err(3),
        n if f[n] != 1 => Err(4),
        n => Ok(n),
    }
}

pub fn accepted(m: u32, f: &Polynomial) -> bool {
    check(m, f).is_ok()
}

/// The degrees n, r and s of an accepted f and a left degree r that fits it.
fn fitting(m: u32, f: &Polynomial, r: usize) -> Option<[usize; 3]> {
    let n = check(m, f).ok()?;
    (2 <= r && n % r == 0 && 2 <= n / r).then(|| [n, r, n / r])
}

pub fn split(m: u32, f: &Polynomial, r: usize) -> Option<(Polynomial, Polynomial)> {
    let degrees = fitting(m, f, r)?;
    let u = invert(r as u64, modulus(m))?;
    let row = row_for(r, degrees[2]);
    match m {
        0 => forced(f, degrees, u, &row, Words),
        _ => forced(f, degrees, u, &row, Below(m as u64)),
    }
}

/// All digits of p, constants or not, one by one.
fn each_digit<M: Modulus>(p: &mut [u32], h: &[u32], s: usize, m: M) {
    let mut at = 0;
    while s < p.len() - at {
        divide(&mut p[at..], h, s, m);
        at += s;
    }
}

/// All digits of p, of degree r * s, in powers of h, constants or not, some at once: none ends it early.
fn all_digits<M: Modulus>(p: &mut [u32], h: &Polynomial, r: usize, s: usize, m: M) {
    let k = at_once(r);
    let mut b = *h;
    raise(&mut b, h, k, s, m);
    let (w, mut at) = (k * s, 0);
    while w < p.len() - at {
        divide(&mut p[at..], &b, w, m);
        each_digit(&mut p[at..at + w], h, s, m);
        at += w;
    }
    each_digit(&mut p[at..], h, s, m);
}

/// The highest power at which f and its composed forced pair differ, or 0. Where the root of f says no, it is that of the root's
/// place; else that of the highest digit which is no constant: the digits above it are the left part's coefficients.
fn difference<M: Modulus>(f: &Polynomial, [n, r, s]: [usize; 3], u: u32, row: &[u64], m: M) -> usize {
    let mut root = Root::EMPTY;
    if !root.find(f, [n, r, s], u, row, m) {
        return n - s - 1;
    }
    let mut a = *f;
    all_digits(&mut a[..n + 1], &root.right_part(s), r, s, m);
    let mut degrees = a[..n].chunks(s).map(degree).enumerate().rev();
    let highest = degrees.find(|&(_, d)| d != 0);
    highest.map_or(0, |(i, d)| i * s + d)
}

/// The quick answer: 1 for a pair or 0, and the highest power that differs. Nothing if it is refused.
pub fn quick(m: u32, f: &Polynomial, r: usize) -> Option<[usize; 2]> {
    let degrees = fitting(m, f, r)?;
    let u = invert(r as u64, modulus(m))?;
    let row = row_for(r, degrees[2]);
    let p = match m {
        0 => difference(f, degrees, u, &row, Words),
        _ => difference(f, degrees, u, &row, Below(m as u64)),
    };
    Some([usize::from(p == 0), p])
}
