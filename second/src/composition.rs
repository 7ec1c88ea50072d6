//! Composition by this program's own method. (`Polynomial::compose`, with which inputs are planted, goes by Horner;
//! here neither Horner's scheme nor a table of powers is used.)

use crate::modulus::Modulus;
use crate::polynomial::Polynomial;
use crate::residue::add;
use crate::series::{power, product};

/// g(h(x)), where the product of the degrees is within the limit.
pub fn composed(g: &Polynomial, h: &Polynomial, m: Modulus) -> Polynomial {
    Polynomial::of(&by_halves(g.used(), h.used(), m))
}

/// g is cut in two, g = low + x^k·high. Then g(h) = low(h) + h^k·high(h).
fn by_halves(g: &[u32], h: &[u32], m: Modulus) -> Vec<u32> {
    if g.len() < 2 {
        return g.to_vec();
    }
    let (low, high) = g.split_at(g.len() / 2);
    let s = h.len() - 1;
    let raised = power(h, low.len(), low.len() * s + 1, m);
    let high_of_h = by_halves(high, h, m);
    let mut whole = product(&raised, &high_of_h, raised.len() + high_of_h.len() - 1, m);
    for (sum, c) in whole.iter_mut().zip(by_halves(low, h, m)) {
        *sum = add(*sum, c, m);
    }
    whole
}

/// The parts of a chain composed, left to right, where the product of all the degrees is within the limit. Composing
/// is associative: the left half of the parts is composed, and the right half, and then the two.
pub fn chain_composed(parts: &[Polynomial], m: Modulus) -> Polynomial {
    match parts {
        [] => panic!("a chain has a part"),
        [whole] => whole.clone(),
        _ => {
            let (left, right) = parts.split_at(parts.len() / 2);
            composed(&chain_composed(left, m), &chain_composed(right, m), m)
        }
    }
}
