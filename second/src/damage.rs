//! Damage to good input, one kind for each line of the table, and several at once, so that the order of the tests
//! matters.

use crate::asked::Asked;
use crate::change::Change;
use crate::desk::LIMIT;
use crate::inputs::{self, LOOK_SMALL};
use crate::modulus::{Modulus, TOP_WORD, WHOLE_WORDS};
use crate::polynomial::Polynomial;
use crate::random::Random;
use crate::refused::{Refused, FIRST};
use crate::residue::multiply;

/// How often the first inputs go through all lines and all pairs of lines: chance may spoil a combination, hardly
/// eight times.
const ROUNDS: usize = 8;

/// The lines that input number `index` is to make due: first, every line alone and with every other, then any number
/// of them; half the time none.
///
/// What is wanted need not come true: a polynomial that is all zero has no leading coefficient to spoil.
pub fn wanted(lines: &[Refused], index: u64, random: &mut Random) -> Vec<Refused> {
    let combinations = lines.len() * (lines.len() + 1) / 2;
    if (index as usize) < ROUNDS * combinations {
        return alone_or_in_pair(lines, index as usize % combinations);
    }
    match random.below(16) {
        0..=8 => Vec::new(),
        9..=12 => one_of(lines, random),
        _ => several(lines, random),
    }
}

/// Each line alone and then with each one before it.
fn alone_or_in_pair(lines: &[Refused], mut number: usize) -> Vec<Refused> {
    let mut last = 0;
    while number > last {
        number -= last + 1;
        last += 1;
    }
    match number.checked_sub(1) {
        None => vec![lines[last]],
        Some(earlier) => vec![lines[earlier], lines[last]],
    }
}

pub fn one_of(lines: &[Refused], random: &mut Random) -> Vec<Refused> {
    vec![random.pick(lines)]
}

/// Two or more of them, where there are as many.
pub fn several(lines: &[Refused], random: &mut Random) -> Vec<Refused> {
    let at_least = lines.len().min(2);
    loop {
        let chosen: Vec<_> = lines.iter().filter(|_| random.once_in(2)).copied().collect();
        if chosen.len() >= at_least {
            return chosen;
        }
    }
}

/// How often an input is made anew when what it was to make due is not due.
pub const TRIES: usize = 200;

/// An input on which all of the lines are due, if one is met. One line or two are tried for again and again; more of
/// them need not come true.
pub fn with_due<I>(lines: &[Refused], due: impl Fn(&I) -> Vec<Refused>, mut make: impl FnMut() -> I) -> I {
    let mut input = make();
    if !(1..=2).contains(&lines.len()) {
        return input;
    }
    for _ in 0..TRIES {
        let due: Vec<Refused> = due(&input).into_iter().map(Refused::line).collect();
        if lines.iter().all(|line| due.contains(line)) {
            break;
        }
        input = make();
    }
    input
}

/// Makes those of the lines due that are about m and the polynomials.
///
/// The coefficients that offend are set after the modulus they offend against, the leading coefficient after the
/// degree is settled.
pub fn spoil(asked: &mut Asked, lines: &[Refused], random: &mut Random) {
    for (which, f) in (FIRST..).zip(&mut asked.polynomials) {
        if lines.contains(&Refused::about(3, which)) {
            lower_degree(f, random);
        }
        if lines.contains(&Refused::about(4, which)) {
            spoil_leading(f, asked.m, random);
        }
    }
    if lines.contains(&Refused::plain(1)) {
        asked.m = spoiled_modulus(random);
    }
    for (which, f) in (FIRST..).zip(&mut asked.polynomials) {
        if lines.contains(&Refused::about(2, which)) {
            spoil_coefficients(f, asked.m, random);
        }
    }
}

/// For No. 3: all zero, a constant, or a linear polynomial.
fn lower_degree(f: &mut Polynomial, random: &mut Random) {
    let kept = random.between(0, 2);
    f.0[kept..].fill(0);
    // Often a 1 leads, so that No. 4 is not due as well.
    if kept > 0 && random.once_in(2) {
        f.0[kept - 1] = 1;
    }
}

/// For No. 4: another leading coefficient, below m wherever m leaves room.
fn spoil_leading(f: &mut Polynomial, m: Modulus, random: &mut Random) {
    let Some(n) = f.degree() else { return };
    let wanted = match random.below(4) {
        0 => 2,
        1 => m.largest_below(),
        2 => random.pick(&LOOK_SMALL),
        _ => inputs::residue(random, m),
    };
    let fits = wanted > 1 && m.is_above(wanted);
    f.0[n] = if fits { wanted } else { 2 };
}

/// For No. 1.
pub fn spoiled_modulus(random: &mut Random) -> Modulus {
    let above = TOP_WORD + 1;
    let any_above = above + random.below(u64::from(above)) as u32;
    Modulus::of_word(random.pick(&[1, above, above + 1, u32::MAX, any_above]))
}

/// For No. 2: one to four coefficients, so that it matters which is lowest.
fn spoil_coefficients(f: &mut Polynomial, m: Modulus, random: &mut Random) {
    let n = f.degree().unwrap_or(0);
    for _ in 0..random.between(1, 4) {
        let power = offending_power(n, random);
        f.0[power] = offending_value(m, random);
    }
}

/// At the ends, below, at and above the degree.
fn offending_power(n: usize, random: &mut Random) -> usize {
    match random.below(8) {
        0 => 0,
        1 => 1,
        2 => LIMIT,
        3 => n,
        4 => random.between(0, n),
        5 | 6 => random.between((n + 1).min(LIMIT), LIMIT),
        _ => random.between(0, LIMIT),
    }
}

/// m or more. No word is 2^32 or more: the largest stands there, and is to be taken.
fn offending_value(m: Modulus, random: &mut Random) -> u32 {
    let least = u32::try_from(m.number()).unwrap_or(u32::MAX);
    let any = random.below(u64::from(u32::MAX - least) + 1) as u32;
    random.pick(&[least, least.saturating_add(1), u32::MAX, least + any])
}

/// For No. 8: a or b too large, or a without an inverse; a is 0 where no other is known.
pub fn spoiled_change(m: Modulus, random: &mut Random) -> Change {
    let [a, b] = inputs::change(random, m);
    // No word is too large at 2^32.
    let ways = if m == WHOLE_WORDS { 2 } else { 4 };
    match random.below(ways) {
        0 => [0, b],
        1 => [without_inverse(m, random), b],
        2 => [a, offending_value(m, random)],
        _ => [offending_value(m, random), b],
    }
}

fn without_inverse(m: Modulus, random: &mut Random) -> u32 {
    match inputs::factor(m, random) {
        Some(p) => multiply(p, inputs::residue(random, m), m),
        None => 0,
    }
}
