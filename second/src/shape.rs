//! Polynomials of many shapes for the operations that take f apart: planted compositions, those that commute, those
//! that split in two orders, those that split nowhere. The degree is known before the modulus is chosen, since the
//! two may not share a factor where f is to be split.

pub mod several;

use crate::change;
use crate::desk::{LIMIT, PARTS};
use crate::inputs;
use crate::modulus::Modulus;
use crate::polynomial::Polynomial;
use crate::random::Random;
use crate::residue::{add, multiply, reduced, subtract};
use crate::series::power;
use std::iter;

pub enum Shape {
    /// Nothing is planted.
    Any(usize),
    /// The degrees of the parts of a planted composition, left to right.
    Planted(Vec<usize>),
    /// x^n.
    Power(usize),
    Chebyshev(usize),
    /// (x^k·p(x^d))^d.
    TwoOrders {
        d: usize,
        k: usize,
        p_degree: usize,
    },
    /// Each after the next.
    After(Vec<Shape>),
}

impl Shape {
    /// Any shape at all.
    pub fn random(random: &mut Random) -> Shape {
        match random.below(20) {
            0 => Shape::Any(random.pick(&PRIME_DEGREES)),
            1 => Shape::Any(inputs::degree(random)),
            2 => Shape::Power(composite_degree(random)),
            3 => Shape::Chebyshev(composite_degree(random)),
            4 => two_orders(random),
            // It splits at half its degree only.
            5..=6 => Shape::Planted(vec![2, random.between(3, LIMIT / 2)]),
            7..=9 => pair(random),
            10..=15 => chain(random),
            _ => odd(random),
        }
    }

    pub fn degree(&self) -> usize {
        match self {
            Shape::Any(n) | Shape::Power(n) | Shape::Chebyshev(n) => *n,
            Shape::Planted(degrees) => degrees.iter().product(),
            Shape::TwoOrders { d, k, p_degree } => d * (k + d * p_degree),
            Shape::After(shapes) => shapes.iter().map(Shape::degree).product(),
        }
    }

    /// A polynomial of this shape modulo m.
    pub fn polynomial(&self, m: Modulus, random: &mut Random) -> Polynomial {
        match self {
            Shape::Any(n) => inputs::monic(random, *n, m),
            Shape::Planted(degrees) => planted(degrees, m, random),
            Shape::Power(n) => moved(plain_power(*n), m, random),
            Shape::Chebyshev(n) => {
                let e = inputs::residue(random, m);
                moved(chebyshev(*n, e, m), m, random)
            }
            Shape::TwoOrders { d, k, p_degree } => {
                let p = inputs::monic(random, *p_degree, m);
                moved(in_two_orders(*d, *k, &p, m), m, random)
            }
            Shape::After(shapes) => {
                let parts = shapes.iter().map(|shape| shape.polynomial(m, random));
                each_after_the_next(parts, m)
            }
        }
    }
}

const PRIME_DEGREES: [usize; 8] = [2, 3, 5, 7, 11, 61, 89, 113];

/// Degrees with many divisors are more likely than others.
fn composite_degree(random: &mut Random) -> usize {
    let r = random.between(2, 11);
    r * random.between(2, LIMIT / r)
}

fn two_orders(random: &mut Random) -> Shape {
    let d = random.between(2, 6);
    let p_degree = random.between(1, LIMIT / (d * d));
    let k = random.between(0, LIMIT / d - d * p_degree);
    Shape::TwoOrders { d, k, p_degree }
}

fn pair(random: &mut Random) -> Shape {
    let (r, s) = inputs::two_degrees(random);
    Shape::Planted(vec![r, s])
}

/// 2 parts or more.
fn chain(random: &mut Random) -> Shape {
    let count = random.between(2, PARTS);
    Shape::Planted(chain_degrees(count, random))
}

/// Of an odd degree, which few others have: at 2^32 there is no other chain.
fn odd(random: &mut Random) -> Shape {
    let count = random.between(2, LIMIT.ilog(3) as usize);
    let mut degrees = odd_degrees(count, random);
    // With the highest rightmost a round begins again below the last s.
    if random.once_in(2) {
        degrees.sort_unstable();
    }
    let n = degrees.iter().product();
    let is_odd = |shape: &Shape| !shape.degree().is_multiple_of(2);
    match random.below(8) {
        0 => Shape::Any(n),
        1 => Shape::Power(n),
        2 => Shape::Chebyshev(n),
        3 => iter::repeat_with(|| two_orders(random)).find(is_odd).expect("some of them are odd"),
        _ => Shape::Planted(degrees),
    }
}

/// The degrees of so many parts, with a product within the limit.
pub fn chain_degrees(count: usize, random: &mut Random) -> Vec<usize> {
    degrees_from(2, 1, count, random)
}

/// The same, all of them odd.
fn odd_degrees(count: usize, random: &mut Random) -> Vec<usize> {
    degrees_from(3, 2, count, random)
}

/// Each is one of `least`, `least + step`, `least + 2·step` and so on.
fn degrees_from(least: usize, step: usize, count: usize, random: &mut Random) -> Vec<usize> {
    let mut degrees = vec![least; count];
    for _ in 0..random.between(0, count) {
        let place = random.between(0, count - 1);
        let others = degrees.iter().product::<usize>() / degrees[place];
        let room = LIMIT / others;
        // Small degrees leave room for further ones.
        let top = random.pick(&[3, 5, room]).min(room);
        degrees[place] = least + step * random.between(0, (top - least) / step);
    }
    degrees
}

fn planted(degrees: &[usize], m: Modulus, random: &mut Random) -> Polynomial {
    let parts = degrees.iter().map(|&n| inputs::monic(random, n, m));
    each_after_the_next(parts, m)
}

fn each_after_the_next(mut parts: impl Iterator<Item = Polynomial>, m: Modulus) -> Polynomial {
    let leftmost = parts.next().expect("at least one part is planted");
    parts.fold(leftmost, |left, right| left.compose(&right, m).expect("what is planted is within the limit"))
}

/// x^n.
pub fn plain_power(n: usize) -> Polynomial {
    let mut f = Polynomial::ZERO;
    f.0[n] = 1;
    f
}

/// Half the time with another unit and origin: what splits, splits still.
pub fn moved(f: Polynomial, m: Modulus, random: &mut Random) -> Polynomial {
    if random.once_in(2) {
        return f;
    }
    change::of_polynomial(&f, inputs::change(random, m), m)
}

/// The Chebyshev polynomial of degree n with its unit changed so that it is monic modulo every m: D_0 = 2, D_1 = x,
/// D_k = x·D_(k-1) - e·D_(k-2). 2^(1-n)·T_n is the one with e = 1/4. They split at every divisor of n (000, section
/// 2).
fn chebyshev(n: usize, e: u32, m: Modulus) -> Polynomial {
    let mut last = Polynomial::of(&[reduced(2, m)]);
    let mut next = plain_power(1);
    for _ in 1..n {
        let mut sum = Polynomial::ZERO;
        sum.0[1..=n].copy_from_slice(&next.0[..n]);
        for i in 0..n {
            sum.0[i] = subtract(sum.0[i], multiply(e, last.0[i], m), m);
        }
        (last, next) = (next, sum);
    }
    next
}

/// x^d after x^k·p(x^d), which is also x^k·p(x)^d after x^d (Ritt): it splits at two left degrees, and neither way is
/// a step of the other.
fn in_two_orders(d: usize, k: usize, p: &Polynomial, m: Modulus) -> Polynomial {
    let mut inner = Polynomial::ZERO;
    for (i, &c) in p.used().iter().enumerate() {
        inner.0[k + d * i] = c;
    }
    let places = d * (inner.used().len() - 1) + 1;
    Polynomial::of(&power(inner.used(), d, places, m))
}

/// One coefficient below the leading one is another: what was planted is most likely no composition any more, and
/// often by its last coefficients only.
pub fn nearly(mut f: Polynomial, m: Modulus, random: &mut Random) -> Polynomial {
    let n = f.degree().expect("what is planted has a degree");
    let power = match random.below(3) {
        0 => random.between(0, 3.min(n - 1)),
        _ => random.between(0, n - 1),
    };
    f.0[power] = add(f.0[power], inputs::not_zero(random, m), m);
    f
}
