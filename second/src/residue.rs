//! Sums and products modulo m, of numbers that are below m.
//!
//! Modulo 2^32 nothing is reduced: a machine word is the number modulo 2^32, so sums, differences and products run
//! round in it, and an inverse comes from its lowest bits up. It is the shortest way there, and shares no line with
//! the other moduli. (Combine and undo go by whole numbers at every modulus, so that the desk is held against both
//! ways.)

use crate::modulus::{Modulus, WHOLE_WORDS};

/// At every other modulus a sum or product is formed in 64 bits, where no factors of 32 bits can overflow, and then
/// reduced: the plainest way, and so this program's.
pub fn add(a: u32, b: u32, m: Modulus) -> u32 {
    match m {
        WHOLE_WORDS => a.wrapping_add(b),
        _ => ((u64::from(a) + u64::from(b)) % m.number()) as u32,
    }
}

pub fn subtract(a: u32, b: u32, m: Modulus) -> u32 {
    match m {
        WHOLE_WORDS => a.wrapping_sub(b),
        _ => ((u64::from(a) + m.number() - u64::from(b)) % m.number()) as u32,
    }
}

pub fn multiply(a: u32, b: u32, m: Modulus) -> u32 {
    match m {
        WHOLE_WORDS => a.wrapping_mul(b),
        _ => ((u64::from(a) * u64::from(b)) % m.number()) as u32,
    }
}

/// A whole number modulo m; modulo 2^32 that is its lowest word.
pub fn reduced(number: u128, m: Modulus) -> u32 {
    match m {
        WHOLE_WORDS => number as u32,
        _ => (number % u128::from(m.number())) as u32,
    }
}

/// Factor by factor: no exponent here is above the limit.
pub fn power(a: u32, exponent: usize, m: Modulus) -> u32 {
    (0..exponent).fold(1, |product, _| multiply(product, a, m))
}

/// Whether the number and m share a factor above 1; modulo 2^32 "only odd r can be split there and only odd n gets a
/// chain" (request No. 3).
pub fn shares_factor(number: u64, m: Modulus) -> bool {
    match m {
        WHOLE_WORDS => number.is_multiple_of(2),
        _ => common_factor(number, m.number()) > 1,
    }
}

/// The greatest common factor; that of 0 and b is b.
pub fn common_factor(a: u64, b: u64) -> u64 {
    if a == 0 {
        return b;
    }
    common_factor(b % a, a)
}

/// The x below m with a·x = 1 modulo m, if there is one.
pub fn inverse(a: u32, m: Modulus) -> Option<u32> {
    match m {
        WHOLE_WORDS => (!a.is_multiple_of(2)).then(|| inverse_of_odd(a)),
        _ => by_remainders(a, m),
    }
}

/// Modulo 2^32: a itself is right modulo 8, where the square of an odd number is 1, and x·(2 - a·x) has twice as many
/// right bits as x: 3, 6, 12, 24, 48.
fn inverse_of_odd(a: u32) -> u32 {
    (0..4).fold(a, |x, _| x.wrapping_mul(2_u32.wrapping_sub(a.wrapping_mul(x))))
}

/// By Euclid's remainders, each written as a·x plus some multiple of m, in whole numbers with their signs. That m is
/// prime is nowhere used.
fn by_remainders(a: u32, m: Modulus) -> Option<u32> {
    let number = i128::from(m.number());
    let (mut last, mut next) = ((number, 0), (i128::from(a), 1));
    while next.0 != 0 {
        let times = last.0 / next.0;
        (last, next) = (next, (last.0 - times * next.0, last.1 - times * next.1));
    }
    let x = last.1.rem_euclid(number) as u32;
    (last.0 == 1).then_some(x)
}
