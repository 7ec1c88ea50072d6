//! x^n and the Chebyshev polynomials of all degrees n up to the limit, at several moduli. They split at every divisor
//! of n, so that their chains are known without any splitting: the prime factors of n in all their orders.

use crate::asked::Asked;
use crate::desk::LIMIT;
use crate::every_chain::FromTheRight;
use crate::list::List;
use crate::modulus::{Modulus, TOP_WORD};
use crate::near::moduli_inverting;
use crate::random::Random;
use crate::shape::{plain_power, Shape};

/// Primes, powers of primes, and 2^32 for an odd n.
const MODULI: [u32; 8] = [101, 1_009, 1_000_003, TOP_WORD, 25, 49, 121, 0];

#[derive(Clone, Copy)]
pub enum Form {
    Power,
    /// Half of them with another unit and origin.
    Chebyshev,
}

/// A form and n; in a block stand the moduli.
pub struct Walk(List<(Form, usize)>);

impl Walk {
    pub fn new() -> Walk {
        let mut blocks = Vec::new();
        for form in [Form::Power, Form::Chebyshev] {
            let of = |n| ((form, n), moduli(n).len() as u64);
            blocks.extend((2..=LIMIT).map(of));
        }
        Walk(List::of(blocks.into_iter()))
    }

    /// The polynomial, and the degrees of its chains.
    pub fn input(&self, index: u64, random: &mut Random) -> (Asked, Vec<FromTheRight>) {
        let ((form, n), number) = self.0.at(index);
        let m = moduli(n)[number as usize];
        let f = match form {
            Form::Power => plain_power(n),
            Form::Chebyshev => Shape::Chebyshev(n).polynomial(m, random),
        };
        (Asked::one(m, f), orders_of_primes(n))
    }
}

/// Those that share no factor with n.
fn moduli(n: usize) -> Vec<Modulus> {
    moduli_inverting(n, &MODULI)
}

/// The prime factors of n in all orders, each once, in the order of request No. 5.
fn orders_of_primes(n: usize) -> Vec<FromTheRight> {
    let mut order = primes(n);
    let mut orders = vec![order.clone()];
    while to_next_order(&mut order) {
        orders.push(order.clone());
    }
    orders
}

/// From the smallest up.
pub fn primes(mut n: usize) -> Vec<usize> {
    let mut primes = Vec::new();
    while n > 1 {
        let least = (2..=n).find(|d| n.is_multiple_of(*d)).expect("n itself");
        primes.push(least);
        n /= least;
    }
    primes
}

/// To the order that comes next, if there is one: the last number with a larger one after it changes places with the
/// last of these, and what comes after its place is turned round.
fn to_next_order(order: &mut [usize]) -> bool {
    let Some(place) = order.windows(2).rposition(|two| two[0] < two[1]) else {
        return false;
    };
    let larger = order.iter().rposition(|&number| number > order[place]);
    order.swap(place, larger.expect("the one after it is"));
    order[place + 1..].reverse();
    true
}
