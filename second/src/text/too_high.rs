//! Pieces of text about No. 10: what goes above the limit and comes back, what is multiplied by zero early or late,
//! and what vanishes above the limit because its coefficients share factors with m.

use super::inputs::{nested, number, raised};
use crate::desk::LIMIT;
use crate::inputs;
use crate::modulus::Modulus;
use crate::random::Random;
use crate::residue::multiply;

const ABOVE: usize = LIMIT + 1;

/// Something in it is above the limit, whatever m is.
pub fn too_high(m: Modulus, random: &mut Random) -> String {
    let high = above(m, random);
    match random.below(8) {
        0 => format!("{high}*0"),
        1 => format!("0*({high})"),
        2 => format!("{high}-{high}"),
        3 => nested(1, &high) + "^0",
        4 => format!("({high}-{high})*x"),
        _ => high,
    }
}

/// A product that is above the limit; often it is only just so.
fn above(m: Modulus, random: &mut Random) -> String {
    let first = random.between(1, LIMIT);
    let enough = ABOVE - first;
    let more = random.between(enough, LIMIT);
    let second = random.pick(&[enough, enough, more]);
    let (first, second) = (raised(first, random), raised(second, random));
    let power = random.between(2, LIMIT);
    let base = raised(ABOVE.div_ceil(power), random);
    let other = number(m, random);
    match random.below(6) {
        0 | 1 => format!("x{first}*x{second}"),
        2 => format!("x{first}*(x{second}+{other})"),
        3 => format!("(x{first}+{other})*x{second}"),
        4 => format!("(x{base})^{power}"),
        _ => format!("(x{base}+{other})^{power}"),
    }
}

/// It may be above the limit, and it may vanish there modulo m.
pub fn vanishing(m: Modulus, random: &mut Random) -> String {
    let (q, p) = (factor(m, random), factor(m, random));
    let a = raised(degree(random), random);
    let b = raised(degree(random), random);
    let power = random.pick(&[1, 2, 2, 3, 3, 4, 5, 6, 7, 8, 16, 32, 33]);
    let c = number(m, random);
    match random.below(10) {
        0 => format!("({q}*x{a})^{power}"),
        1 => format!("({q}*x{a}+{c})^{power}"),
        2 => format!("({c}-{q}*x{a}+x)^{power}"),
        3 => format!("{q}*x{a}*({p}*x{b})"),
        4 => format!("({q}*x{a}+x)*({p}*x{b}-{c})"),
        // Left to right the top is there before it vanishes; then not.
        5 => format!("{q}*x{a}*x{b}*{p}"),
        6 => format!("{q}*{p}*x{a}*x{b}"),
        7 => format!("0*x{a}*x{b}"),
        8 => format!("(({q}*x{a}+{c})^{power})^0"),
        _ => format!("(x{a}-x{a})*x{b}*x{a}"),
    }
}

/// Above half of the limit, a third of it and so on, or not.
fn degree(random: &mut Random) -> usize {
    let near = LIMIT / random.between(1, 5);
    let any = random.between(0, LIMIT);
    random.pick(&[near, (near + 1).min(LIMIT), any])
}

/// A power below m of a factor of m, where one is known, or a multiple of it: some power of it is 0 modulo m, if m is
/// a power of that factor.
fn factor(m: Modulus, random: &mut Random) -> u32 {
    let factor = u64::from(inputs::factor(m, random).unwrap_or(1));
    let powers = (1..32).map(|power| factor.saturating_pow(power));
    let below: Vec<u64> = powers.filter(|&power| power < m.number()).collect();
    let power = random.pick(&below) as u32;
    match random.once_in(4) {
        true => multiply(power, inputs::residue(random, m), m),
        false => power,
    }
}

/// Moduli that have such numbers.
pub fn modulus(random: &mut Random) -> Modulus {
    let words = [0, 0, 0, 0, 4, 8, 9, 16, 25, 27, 64, 65_536, 1 << 30];
    Modulus::of_word(random.pick(&words))
}
