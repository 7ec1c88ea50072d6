//! Good inputs that every operation needs: moduli, residues, polynomials, degrees and changes that 01 takes, the
//! edges more often than chance would give them.

use crate::change::{self, Change};
use crate::desk::LIMIT;
use crate::modulus::{Modulus, TOP_WORD, WHOLE_WORDS};
use crate::polynomial::Polynomial;
use crate::random::Random;
use crate::residue::{common_factor, multiply};

/// Below 2^32: the ends of the range, primes, powers of primes and other composites, and both sides of the widths of
/// 1, 2 and 3 bytes.
#[rustfmt::skip]
const MODULI: [u32; 40] = [
    2, 3, 4, 5, 6, 7, 8, 9, 10, 15, 25, 27, 35, 49, 101, 121, 255, 256, 257, 343, 1_001, 30_030, 65_536, 65_537,
    16_777_216, 16_777_259,
    214_358_881, 1_162_261_467, 1_220_703_125, 1_977_326_743, // 11^8, 3^19, 5^13, 7^11
    1_073_741_824, 223_092_870, // 2^30, 2·3·5·7·11·13·17·19·23
    2_147_483_578, 2_147_483_643, 2_147_483_545, // twice, three times and five times a prime
    2_146_654_199, 2_147_117_569, // two large primes, one of them twice
    2_147_483_629, TOP_WORD - 1, TOP_WORD, // the largest primes among them
];

/// Some of these divide every modulus above that is not prime, and 2^32.
const FACTORS: [u32; 12] = [2, 3, 5, 7, 11, 13, 17, 19, 23, 46_327, 46_337, 65_536];

/// Numbers that look like 0 or 1 when only some of their bytes are looked at.
pub const LOOK_SMALL: [u32; 7] = [256, 257, 65_536, 65_537, 16_777_216, 16_777_217, 0x4000_0001];

/// Where a word with a sign turns from the largest number to the smallest.
const LOOK_NEGATIVE: [u32; 3] = [0x7FFF_FFFF, 0x8000_0000, 0x8000_0001];

const DEGREES: [usize; 10] = [2, 3, 4, 6, 12, LIMIT / 2 - 1, LIMIT / 2, LIMIT / 2 + 1, LIMIT - 1, LIMIT];

/// Takes a choice out of `of` from the number of a combination, for inputs that go through all combinations.
pub fn choose(combination: &mut u64, of: u64) -> u64 {
    let choice = *combination % of;
    *combination /= of;
    choice
}

// Moduli.

/// Any m; once in six it is 2^32.
pub fn modulus(random: &mut Random) -> Modulus {
    match random.once_in(6) {
        true => WHOLE_WORDS,
        false => Modulus::of_word(word(random)),
    }
}

/// m from 2 to 2,147,483,647.
fn word(random: &mut Random) -> u32 {
    match random.below(3) {
        0 => random.pick(&MODULI),
        1 => small_word(random),
        _ => 2 + random.below(u64::from(TOP_WORD) - 1) as u32,
    }
}

/// Every width in bits is as likely as every other.
fn small_word(random: &mut Random) -> u32 {
    let bits = random.between(2, 31);
    let any = random.below(1 << bits) as u32;
    any.clamp(2, TOP_WORD)
}

/// m that shares no factor above 1 with the number, which is not 0. For an odd one it is often 2^32, since for an
/// even one it cannot be.
pub fn modulus_without(number: usize, random: &mut Random) -> Modulus {
    if !number.is_multiple_of(2) && random.below(5) < 2 {
        return WHOLE_WORDS;
    }
    loop {
        let mut m = u64::from(word(random));
        // What is shared is divided out, so that composites stay composite.
        while common_factor(m, number as u64) > 1 {
            m /= common_factor(m, number as u64);
        }
        if m >= 2 {
            return Modulus::of_word(m as u32);
        }
    }
}

/// m that shares a factor above 1 with the number, which is at least 2.
pub fn modulus_sharing(number: usize, random: &mut Random) -> Modulus {
    if number.is_multiple_of(2) && random.once_in(3) {
        return WHOLE_WORDS;
    }
    let divides = |d: &usize| number.is_multiple_of(*d);
    let divisors: Vec<usize> = (2..=number).filter(divides).collect();
    let shared = random.pick(&divisors) as u32;
    Modulus::of_word(match random.below(4) {
        0 => shared,
        1 => shared * shared,
        _ => shared * (word(random) / shared).max(1),
    })
}

/// What kind of number a modulus is.
pub const KINDS: [&str; 3] = ["m prime", "m a prime power", "m of several primes"];

/// By trial; only for moduli of two bytes, so that it costs little.
pub fn kind_of_modulus(m: Modulus) -> Option<&'static str> {
    let m = m.number();
    if m > 65_535 {
        return None;
    }
    let least = (2..=m.isqrt()).find(|p| m.is_multiple_of(*p));
    let Some(p) = least else {
        return Some(KINDS[0]);
    };
    let mut rest = m;
    while rest.is_multiple_of(p) {
        rest /= p;
    }
    let power = rest == 1;
    Some(if power { KINDS[1] } else { KINDS[2] })
}

/// A factor of m that is neither 1 nor m, where one is known.
pub fn factor(m: Modulus, random: &mut Random) -> Option<u32> {
    let fits = |p: &&u32| m.is_above(**p) && m.number().is_multiple_of(u64::from(**p));
    let known: Vec<u32> = FACTORS.iter().filter(fits).copied().collect();
    (!known.is_empty()).then(|| random.pick(&known))
}

// Coefficients and polynomials.

/// A coefficient from 0 to m - 1.
pub fn residue(random: &mut Random, m: Modulus) -> u32 {
    let edge = match random.below(8) {
        0 => Some(1),
        1 => Some(m.largest_below()),
        2 => Some(random.pick(&LOOK_SMALL)),
        3 => Some(random.pick(&LOOK_NEGATIVE)),
        _ => None,
    };
    match edge.filter(|&edge| m.is_above(edge)) {
        Some(edge) => edge,
        None => random.below(m.number()) as u32,
    }
}

/// The same from 1 to m - 1; an edge at times: at 2^32 the highest bit alone.
pub fn not_zero(random: &mut Random, m: Modulus) -> u32 {
    residue(random, m).max(1)
}

/// n from 2 to the limit.
pub fn degree(random: &mut Random) -> usize {
    if random.once_in(2) {
        return random.pick(&DEGREES);
    }
    random.between(2, LIMIT)
}

/// r and s, both at least 2, with a product within the limit.
pub fn two_degrees(random: &mut Random) -> (usize, usize) {
    let first = match random.below(4) {
        0 => random.pick(&[2, 3, 7, 9, 11, LIMIT / 3, LIMIT / 2 - 1, LIMIT / 2]),
        1 => random.between(2, LIMIT / 2),
        _ => random.between(2, 11),
    };
    let room = LIMIT / first;
    let second = if random.once_in(4) { room } else { random.between(2, room) };
    if random.once_in(2) {
        return (second, first);
    }
    (first, second)
}

/// A monic polynomial of the given degree. How many of its coefficients are zero differs from polynomial to
/// polynomial: from none to nearly all. Where m is composite, all but the leading one may share a factor with it, so
/// that products of them vanish.
pub fn monic(random: &mut Random, degree: usize, m: Modulus) -> Polynomial {
    let mut f = Polynomial::ZERO;
    let eighths_not_zero = 1 + random.below(8);
    let common = match random.below(6) {
        0 => factor(m, random).unwrap_or(1),
        _ => 1,
    };
    for place in &mut f.0[..degree] {
        if random.below(8) < eighths_not_zero {
            *place = multiply(residue(random, m), common, m);
        }
    }
    f.0[degree] = 1;
    f
}

/// g(h(x)) for two monic polynomials: the kind of f that splits.
fn composed(random: &mut Random, m: Modulus) -> Polynomial {
    let (r, s) = two_degrees(random);
    let g = monic(random, r, m);
    let h = monic(random, s, m);
    g.compose(&h, m).expect("r times s is within the limit")
}

/// Any polynomial that is not refused by 2, 3 or 4.
pub fn polynomial(random: &mut Random, m: Modulus) -> Polynomial {
    if random.once_in(8) {
        return composed(random, m);
    }
    let n = degree(random);
    monic(random, n, m)
}

// Changes.

/// A change that is not refused by 8: a has an inverse.
pub fn change(random: &mut Random, m: Modulus) -> Change {
    let b = match random.below(4) {
        0 => 0,
        _ => residue(random, m),
    };
    loop {
        let found = [residue(random, m), b];
        if !change::refused(found, m) {
            return found;
        }
    }
}
