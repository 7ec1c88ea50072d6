//! A quick no: whether f splits at r, and the highest power at which its forced pair fails (request No. 7); worked
//! out with nothing left out. The forced pair is composed in full, and f is compared with it at every power of x.

use super::split::{self, kind_unfit, numbered, Block, NO_PAIR, SHARING, UNFIT, UNFITTING};
use crate::common::*;
use crate::composition::composed;
use crate::decomposition::forced_pair;
use crate::near::{every_two_degrees, moduli_inverting, Near, Other, Walk};
use crate::residue::add;
use crate::shape::Shape;
use crate::tiny::{self, forced, Size};

const YES: &str = "yes";
const YES_HIGHEST_DEGREE: &str = "yes, highest degree";
const NO_HIGHEST_DEGREE: &str = "no, highest degree";
/// The highest power that can be reported, and the lowest.
const NO_HIGHEST: &str = "no at x^(n-s-1)";
const NO_BETWEEN: &str = "no between";
const NO_LOWEST: &str = "no at x";
/// All that can be answered.
const ANSWERS: [&str; 6] = [YES, YES_HIGHEST_DEGREE, NO_HIGHEST_DEGREE, NO_HIGHEST, NO_BETWEEN, NO_LOWEST];

pub const ENTRY: Entry = Entry {
    name: "quick",
    operation: Operation::Quick,
    usual: || 60_000,
    input: |index, random| input(index, random).into(),
    own: Some(own),
    kinds: |asked, answer| match answer.refused {
        Refused::ANSWERED => {
            let mut kinds = kinds_answered(asked, answer);
            kinds.extend(inputs::kind_of_modulus(asked.m));
            kinds
        }
        UNFIT => vec![kind_unfit(asked)],
        _ => Vec::new(),
    },
    wanted: || Wanted {
        order: split::order(),
        kinds: [&ANSWERS[..], &inputs::KINDS, &UNFITTING].concat(),
        at_2_32: Some(ANSWERS.to_vec()),
        ..Wanted::default()
    },
    ..Entry::USUAL
};

/// "Refusals 1 to 6 are the same": those of the split.
pub fn own(asked: &Asked) -> Own {
    Own::new(Operation::Quick, asked, split::refusals_due(asked), || {
        let (f, r, m) = (asked.first(), asked.number(), asked.m);
        Ok(answered(difference(f, r, m)))
    })
}

/// A no at the highest power that differs, or a yes: 1 for yes and 0 for no, then the power, "and 0 with a yes".
fn answered(differs: Option<usize>) -> Answer {
    Answer::numbers(&[usize::from(differs.is_none()), differs.unwrap_or(0)])
}

/// The highest power of x at which f and its composed forced pair differ, if they do; r divides the degree of f and
/// has an inverse modulo m.
fn difference(f: &Polynomial, r: usize, m: Modulus) -> Option<usize> {
    let (g, h) = forced_pair(f, r, m);
    highest_apart(f, &composed(&g, &h, m))
}

fn highest_apart(f: &Polynomial, other: &Polynomial) -> Option<usize> {
    (0..TERMS).rev().find(|&k| f.0[k] != other.0[k])
}

/// Which of the answers this is, to whatever r; where s = 2 and n = 4 the highest power is the lowest.
fn kinds_answered(asked: &Asked, answer: &Answer) -> Vec<&'static str> {
    let (n, r) = (asked.degree(), asked.number());
    let s = n.checked_div(r).unwrap_or(n);
    let (yes, power, highest) = (answer.numbers[0] == 1, answer.numbers[1], n.saturating_sub(s + 1));
    let kinds = [
        (YES, yes),
        (YES_HIGHEST_DEGREE, yes && n == LIMIT),
        (NO_HIGHEST_DEGREE, !yes && n == LIMIT),
        (NO_HIGHEST, !yes && power == highest),
        (NO_BETWEEN, !yes && power != highest && power != 1),
        (NO_LOWEST, !yes && power == 1),
    ];
    kinds.into_iter().filter(|(_, is)| *is).map(|(kind, _)| kind).collect()
}

// The inputs.

/// Of eight inputs two are the next of all degrees n and all r from 0 to n + 1, one is the next of all n and r that
/// fit, with any f, and one is at the ends.
fn input(index: u64, random: &mut Random) -> Asked {
    match index % 8 {
        1 => at_every_fit(index / 8, random),
        3 | 7 => split::at_every_r(index / 4, random),
        5 => at_the_ends(random),
        _ => right_or_wrong(index / 2, random),
    }
}

/// What the split is given, "no pair" more often.
fn right_or_wrong(index: u64, random: &mut Random) -> Asked {
    let mut lines = damage::wanted(&table(1, &[UNFIT, SHARING, NO_PAIR]), index, random);
    if lines.is_empty() && random.once_in(2) {
        lines.push(NO_PAIR);
    }
    let mut asked = split::good(&lines, random);
    damage::spoil(&mut asked, &lines, random);
    asked
}

/// All r and s; nothing is planted.
fn at_every_fit(place: u64, random: &mut Random) -> Asked {
    let every: Vec<_> = every_two_degrees().collect();
    let (r, s) = every[place as usize % every.len()];
    let m = inputs::modulus_without(r, random);
    Asked::one(m, inputs::monic(random, r * s, m)).at(r)
}

/// A composition of the lowest degree or a high one, as it is or another at one power: the highest that can be
/// reported, the lowest, or any.
fn at_the_ends(random: &mut Random) -> Asked {
    let n = random.pick(&[4, 64, 120, LIMIT, LIMIT]);
    let r = split::left_degree(n, random);
    let m = inputs::modulus_without(r, random);
    let mut f = Shape::Planted(vec![r, n / r]).polynomial(m, random);
    let power = match random.below(4) {
        0 => Some(n - n / r - 1),
        1 => Some(1),
        2 => Some(random.between(0, n - 1)),
        _ => None,
    };
    if let Some(k) = power {
        f.0[k] = add(f.0[k], inputs::not_zero(random, m), m);
    }
    Asked::one(m, f).at(r)
}

// Every monic f of a tiny size at every left degree that fits and has an inverse, with the forced pair found by going
// through all g and h.

fn tiny_list() -> &'static List<Block> {
    static LIST: OnceLock<List<Block>> = OnceLock::new();
    let blocks = |&size: &Size| forced::left_degrees(size).map(move |r| ((size, r), tiny::count(size)));
    LIST.get_or_init(|| List::of(forced::FORCED.iter().flat_map(blocks)))
}

pub const TINY: Entry = Entry {
    name: "tiny_quick",
    usual: || tiny_list().length(),
    is_list: true,
    input: |index, _| numbered(tiny_list().at(index)).into(),
    own: Some(|asked| {
        let (f, r, m) = (asked.first(), asked.number(), asked.m);
        let found = highest_apart(f, forced::composed(f, r, m));
        assert!(found == difference(f, r, m), "the two own ways to a forced pair differ");
        assert!(found.is_none() == tiny::pair(f, r, m).is_some(), "a yes is that there is a pair");
        Own { answer: answered(found), due: Vec::new() }
    }),
    kinds: kinds_answered,
    wanted: || Wanted { kinds: vec![YES, NO_HIGHEST, NO_BETWEEN, NO_LOWEST], ..Wanted::default() },
    ..ENTRY
};

// All degrees r and s, of g(h) itself and of every f that is another at one place. Below the leading terms the right
// part is that h still, and mostly the power is known by the way in which f was made.

/// The smallest primes, composites of one prime and of two, and the largest; and 2^32 three times, since for an even
/// r it cannot be.
const MODULI: [u32; 14] = [2, 3, 5, 7, 4, 9, 15, 35, 65_536, TOP_WORD - 1, TOP_WORD, 0, 0, 0];

/// With h(0) zero and not zero: any pair becomes normal.
fn walk() -> &'static Walk {
    static WALK: OnceLock<Walk> = OnceLock::new();
    WALK.get_or_init(|| Walk::new(&[true, false], |r| moduli_inverting(r, &MODULI)))
}

const MADE: [&str; 4] =
    ["made to split", "made to differ at k", "made to differ at a multiple of s", "another leading term"];

/// What the way in which f was made tells of the answer.
///
/// More at x^k, or more·x^i·h^j with k = js + i, has degree k. If s does not divide k, no power of h takes it off,
/// and what g takes off below it does not reach it. If s divides k, more·h^j is a matter of g alone, and so is more
/// at x^0; else the rest of h^j is left, which is lower. Where a leading term is another, the right part is another
/// with it.
fn made(near: &Near, answer: &Answer) -> Option<&'static str> {
    let (n, k) = (near.asked.degree(), near.place);
    let s = n / near.r;
    let splits = (MADE[0], *answer == answered(None));
    let (kind, fits) = match near.other {
        Other::Nothing => splits,
        _ if k > n - s => (MADE[3], true),
        _ if !k.is_multiple_of(s) => (MADE[1], *answer == answered(Some(k))),
        Other::Coefficient if k > 0 => (MADE[2], answer.numbers[1] < k),
        Other::Coefficient | Other::OfDigit => splits,
    };
    fits.then_some(kind)
}

pub const NEAR: Entry = Entry {
    name: "near_quick",
    usual: || walk().length(),
    is_list: true,
    input: |index, random| {
        let near = walk().input(index, random);
        let asked = Asked::one(near.asked.m, near.asked.first().clone()).at(near.r);
        Input { asked, made: Some(Box::new(move |answer| made(&near, answer))) }
    },
    kinds: kinds_answered,
    wanted: || {
        let often = [&[YES, NO_HIGHEST, NO_BETWEEN], &MADE[..]].concat();
        // These are too rare at 2^32 to be met in few inputs.
        let rare = [YES_HIGHEST_DEGREE, NO_HIGHEST_DEGREE, NO_LOWEST];
        Wanted { kinds: [&often[..], &rare].concat(), at_2_32: Some(often), ..Wanted::default() }
    },
    ..ENTRY
};
