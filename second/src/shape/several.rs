//! Shapes that have more than one chain as a rule: x^n and the Chebyshev polynomials, which split at every divisor of
//! n, those that split in two orders, and compositions of all of these.

use super::Shape;
use crate::desk::LIMIT;
use crate::inputs;
use crate::modulus::Modulus;
use crate::polynomial::Polynomial;
use crate::random::Random;
use crate::residue::{add, common_factor, inverse, multiply, subtract};
use std::iter;

impl Shape {
    /// Once in three of an odd degree: at 2^32 there is no other chain.
    pub fn of_several_chains(random: &mut Random) -> Shape {
        let odd = random.once_in(3);
        let fits = |shape: &Shape| {
            let n = shape.degree();
            n <= LIMIT && !(odd && n.is_multiple_of(2))
        };
        iter::repeat_with(|| composition(random)).find(fits).expect("some of them fit")
    }
}

/// Degrees whose prime factors have many orders.
const MANY_ORDERS: [usize; 14] = [30, 42, 45, 60, 63, 72, 75, 84, 90, 99, 105, 105, 120, 126];

/// 1 to 4 shapes, each after the next; now and then one with many chains. Each may have its own unit and origin, so
/// that some commute with their neighbours and some do not.
fn composition(random: &mut Random) -> Shape {
    if random.once_in(24) {
        return with_many_orders(random);
    }
    let count = random.between(1, 4);
    Shape::After((0..count).map(|_| one(random)).collect())
}

fn with_many_orders(random: &mut Random) -> Shape {
    let n = random.pick(&MANY_ORDERS);
    match random.once_in(2) {
        true => Shape::Power(n),
        false => Shape::Chebyshev(n),
    }
}

fn one(random: &mut Random) -> Shape {
    match random.below(8) {
        0 | 1 => Shape::Power(random.between(2, 12)),
        2 => Shape::Chebyshev(random.between(2, 12)),
        3 => Shape::Any(random.between(2, 6)),
        _ => in_two_orders(random),
    }
}

/// Of a low degree, which leaves room for others.
fn in_two_orders(random: &mut Random) -> Shape {
    Shape::TwoOrders { d: random.pick(&[2, 2, 3, 3, 5]), k: random.between(0, 3), p_degree: random.pick(&[1, 1, 2]) }
}

/// What is f modulo one factor of m and `other` modulo the other one, where such factors are known: it splits only
/// where both do.
pub fn mixed(f: &Polynomial, other: &Polynomial, m: Modulus, random: &mut Random) -> Option<Polynomial> {
    let mut p = u64::from(inputs::factor(m, random)?);
    let mut q = m.number() / p;
    // All that they share goes into p.
    while common_factor(p, q) > 1 {
        let shared = common_factor(p, q);
        (p, q) = (p * shared, q / shared);
    }
    if q == 1 {
        return None;
    }
    let one_pth = inverse((p % q) as u32, Modulus::of_word(q as u32))?;
    // 0 modulo p and 1 modulo q.
    let of_other = multiply(p as u32, one_pth, m);
    let mut mixed = f.clone();
    for (c, &other) in mixed.0.iter_mut().zip(&other.0) {
        *c = add(*c, multiply(of_other, subtract(other, *c, m), m), m);
    }
    Some(mixed)
}
