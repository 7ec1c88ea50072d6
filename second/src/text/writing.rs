//! A polynomial as text: "each nonzero term as coefficient*x^i in plain decimals, highest first, joined by +, with
//! nothing shortened".

use crate::polynomial::Polynomial;

/// Of any numbers; that of all zero has no bytes.
pub fn text(f: &Polynomial) -> Vec<u8> {
    let highest_first = f.0.iter().enumerate().rev();
    let not_zero = highest_first.filter(|(_, &coefficient)| coefficient != 0);
    let terms = not_zero.map(|(i, coefficient)| format!("{coefficient}*x^{i}"));
    Vec::from_iter(terms).join("+").into_bytes()
}
