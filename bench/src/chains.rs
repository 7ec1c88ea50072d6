//! The number of complete chains and the last of them, beside plain Rust by the same search; and the splits that it makes.

use crate::binomial::binomials;
use crate::desk::{desk_count_chains, desk_nth_chain, Polynomial, LIMIT, TERMS, WORDS};
use crate::listing::planted;
use crate::modulus::{invert, modulus, Below, Modulus, Words};
use crate::plain::{check, degree, split_by};
use crate::split::monic;
use crate::timing::{at, beside, Random};
use std::hint::black_box;

/// Fewer calls in a run than in other rows have: the longest search takes 121 splits.
const CALLS: usize = 5;

/// The pair of f, of degree n, at the right degree s, if there is one. The search is handed it, so that a run which counts the
/// splits can hand it another one than a run which is timed.
trait Split {
    /// The inverse of n, one for a round over its right degrees.
    fn inverse(&self, n: usize) -> u32;
    /// The split by the inverse v of n.
    fn split(&mut self, f: &Polynomial, n: usize, s: usize, v: u32) -> Option<Pair>;
}

type Pair = (Polynomial, Polynomial);

struct Splitting<'a, M>(M, &'a [u64]);

impl<M: Modulus> Split for Splitting<'_, M> {
    fn inverse(&self, n: usize) -> u32 {
        invert(n as u64, self.0.number()).unwrap()
    }

    fn split(&mut self, f: &Polynomial, n: usize, s: usize, v: u32) -> Option<Pair> {
        split_by(f, n, s, v, self.1, self.0)
    }
}

struct Counting<S>(S, usize);

impl<S: Split> Split for Counting<S> {
    fn inverse(&self, n: usize) -> u32 {
        self.0.inverse(n)
    }

    fn split(&mut self, f: &Polynomial, n: usize, s: usize, v: u32) -> Option<Pair> {
        self.1 += 1;
        self.0.split(f, n, s, v)
    }
}

/// The right degrees that a polynomial of degree n may split at.
fn right_degrees(n: usize) -> impl Iterator<Item = usize> {
    (2..=n / 2).filter(move |s| n % s == 0)
}

/// Whether f, of degree n, splits.
fn is_split<S: Split>(by: &mut S, f: &Polynomial, n: usize) -> bool {
    let v = by.inverse(n);
    right_degrees(n).any(|s| by.split(f, n, s, v).is_some())
}

/// The pair of f at s if its right part can stand next to x in a complete chain: it does not split.
fn pair<S: Split>(by: &mut S, f: &Polynomial, n: usize, s: usize, v: u32) -> Option<Pair> {
    let (g, h) = by.split(f, n, s, v)?;
    (!is_split(by, &h, s)).then_some((g, h))
}

/// The number of complete chains of f, of degree n. One that has no pair here does not split and is a chain by itself.
fn count<S: Split>(by: &mut S, f: &Polynomial, n: usize) -> usize {
    let (v, mut passed) = (by.inverse(n), 0);
    for s in right_degrees(n) {
        if let Some((g, _)) = pair(by, f, n, s, v) {
            passed += count(by, &g, n / s);
        }
    }
    passed.max(1)
}

/// What a walk comes to: the j-th chain, its parts and price, or as many chains as it passed, none of them the j-th.
enum Walked {
    Reached([usize; 2]),
    Passed(usize),
}

fn lay(area: &mut [u32], f: &Polynomial, [parts, price]: [usize; 2]) -> Walked {
    area[parts * TERMS..(parts + 1) * TERMS].copy_from_slice(f);
    Walked::Reached([parts + 1, price + degree(f) - 1])
}

/// Walks the complete chains of f, of degree n, in their order to the j-th, and lays its parts on the way back, the leftmost
/// first.
fn walk<S: Split>(by: &mut S, f: &Polynomial, n: usize, j: usize, area: &mut [u32]) -> Walked {
    let (v, mut passed) = (by.inverse(n), 0);
    for s in right_degrees(n) {
        if let Some((g, h)) = pair(by, f, n, s, v) {
            match walk(by, &g, n / s, j - passed, area) {
                Walked::Reached(numbers) => return lay(area, &h, numbers),
                Walked::Passed(more) => passed += more,
            }
        }
    }
    match (passed, j) {
        (0, 0) => lay(area, f, [0, 0]),
        _ => Walked::Passed(passed.max(1)),
    }
}

/// The degree of an f that has chains.
fn chained(m: u32, f: &Polynomial) -> Option<usize> {
    let n = check(m, f).ok()?;
    invert(n as u64, modulus(m)).map(|_| n)
}

fn number(m: u32, f: &Polynomial, table: &[u64]) -> Option<usize> {
    let n = chained(m, f)?;
    Some(match m {
        0 => count(&mut Splitting(Words, table), f, n),
        _ => count(&mut Splitting(Below(m as u64), table), f, n),
    })
}

fn nth(m: u32, f: &Polynomial, j: usize, area: &mut [u32], table: &[u64]) -> Option<[usize; 2]> {
    area[..WORDS].fill(0);
    let n = chained(m, f)?;
    let walked = match m {
        0 => walk(&mut Splitting(Words, table), f, n, j, area),
        _ => walk(&mut Splitting(Below(m as u64), table), f, n, j, area),
    };
    match walked {
        Walked::Reached(numbers) => Some(numbers),
        Walked::Passed(_) => None,
    }
}

fn desk_number(m: u32, f: &Polynomial) -> usize {
    let mut number = 0;
    let refused = unsafe { desk_count_chains(m, f, &mut number) };
    assert!(refused.number == 0 && refused.polynomial == 0 && refused.power == 0);
    number
}

fn desk_nth(m: u32, f: &Polynomial, j: usize, area: &mut [u32]) -> Option<[usize; 2]> {
    let mut numbers = [0; 2];
    let (words, count) = (area.as_mut_ptr(), area.len());
    let refused = unsafe { desk_nth_chain(m, f, j, words, count, &mut numbers) };
    assert!(refused.polynomial == 0 && refused.power == 0);
    match refused.number {
        0 => Some(numbers),
        18 => None,
        other => panic!("No. {other}"),
    }
}

fn sum(area: &[u32], numbers: [usize; 2]) -> u64 {
    let words = area.iter().map(|&w| w as u64);
    words.chain(numbers.map(|x| x as u64)).fold(0, |a, x| a.wrapping_mul(31).wrapping_add(x))
}

/// Compares every chain of f, and the j after the last, then times the number and the last chain.
fn rows(label: &str, m: u32, f: &Polynomial, table: &[u64]) {
    let last = desk_number(m, f) - 1;
    let (mut area, mut other) = ([7; WORDS], [9; WORDS]);
    for j in 0..last + 2 {
        let numbers = desk_nth(m, f, j, &mut area);
        assert_eq!(numbers, nth(m, f, j, &mut other, table), "{label}, j = {j}");
        assert!(area == other && numbers.is_some() == (j <= last));
    }
    beside(
        &format!("count chains, {label}{}", at(m)),
        CALLS,
        &mut |_| desk_number(m, black_box(f)) as u64,
        &mut |_| number(m, black_box(f), black_box(table)).unwrap() as u64,
    );
    beside(
        &format!("chain {last}, {label}{}", at(m)),
        CALLS,
        &mut |_| {
            let numbers = desk_nth(m, black_box(f), last, &mut area).unwrap();
            sum(&area, numbers)
        },
        &mut |_| {
            let numbers = nth(m, black_box(f), last, &mut other, black_box(table)).unwrap();
            sum(&other, numbers)
        },
    );
}

fn power(n: usize) -> Polynomial {
    let mut f = [0; TERMS];
    f[n] = 1;
    f
}

fn powers(m: u32, degrees: &[usize], table: &[u64]) {
    for &n in degrees {
        rows(&format!("x^{n}"), m, &power(n), table);
    }
}

/// A chain of these degrees, and a polynomial of degree n that does not split.
fn others(random: &mut Random, m: u32, degrees: &[usize], n: usize, table: &[u64]) {
    let f = planted(random, m, degrees);
    rows(&format!("planted {degrees:?}"), m, &f, table);
    let f = monic(random, m, n);
    rows(&format!("indecomposable, degree {n}"), m, &f, table);
}

/// Prints how many splits the search makes. Of all polynomials of degree n, x^n makes the most (bounds.py).
fn splits(m: u32, degrees: &[usize], table: &[u64]) {
    println!();
    println!("{:<52}{:>12}{:>12}", "splits of one search", "count", "last chain");
    for &n in degrees {
        let f = power(n);
        let counting = || Counting(Splitting(Below(m as u64), table), 0);
        let (mut counted, mut walked) = (counting(), counting());
        let number = count(&mut counted, &f, n);
        walk(&mut walked, &f, n, number - 1, &mut [0; WORDS]);
        let label = format!("x^{n}, chains: {number}");
        println!("{label:<52}{:>12}{:>12}", counted.1, walked.1);
    }
}

pub fn run() {
    let (m, table) = (2147483647, binomials());
    let mut random = Random(5);
    powers(m, &[120, LIMIT, 96, 64, 60], &table);
    others(&mut random, m, &[2, 3, 3, 7], 120, &table);
    powers(0, &[105, 81, 125], &table);
    others(&mut random, 0, &[3, 5, 7], 105, &table);
    splits(m, &[120, LIMIT, 96, 64, 60], &table);
}
