//! Compose g, the first polynomial, and h, the second.

use crate::common::*;
use crate::composition::composed;

/// The composed degree is above the limit.
pub const TOO_HIGH: Refused = Refused::plain(10);

/// A degree below 2 takes no product above the limit.
pub const APART: [(Refused, Refused); 2] =
    [(Refused::about(3, FIRST), TOO_HIGH), (Refused::about(3, SECOND), TOO_HIGH)];

const HIGHEST: &str = "highest degree";
const NORMAL: &str = "h(0) zero";
const NOT_NORMAL: &str = "h(0) not zero";

pub const ENTRY: Entry = Entry {
    name: "compose",
    operation: Operation::Compose,
    usual: || 100_000,
    input: |index, random| {
        let lines = damage::wanted(&table(2, &[TOO_HIGH]), index, random);
        let mut asked = degrees(lines.contains(&TOO_HIGH), random);
        damage::spoil(&mut asked, &lines, random);
        asked.into()
    },
    own: Some(own),
    kinds,
    wanted: || Wanted {
        order: table(2, &[TOO_HIGH]),
        apart: APART.to_vec(),
        kinds: vec![HIGHEST, NORMAL, NOT_NORMAL],
        at_2_32: Some(vec![HIGHEST, NORMAL, NOT_NORMAL]),
        ..Wanted::default()
    },
    ..Entry::USUAL
};

pub fn own(asked: &Asked) -> Own {
    Own::new(Operation::Compose, asked, refusals_due(asked), || {
        Ok(Answer::one(composed(asked.first(), asked.second(), asked.m)))
    })
}

fn kinds(asked: &Asked, answer: &Answer) -> Vec<&'static str> {
    let Some(n) = answer.polynomials[0].degree() else {
        return Vec::new();
    };
    let constant = if asked.second().0[0] == 0 { NORMAL } else { NOT_NORMAL };
    [constant].into_iter().chain((n == LIMIT).then_some(HIGHEST)).collect()
}

/// 1, then 2, 3, 4 for g and for h, then 10.
pub fn refusals_due(asked: &Asked) -> Vec<Refused> {
    let mut due = asked.refusals_due();
    due.extend((asked.degrees().iter().product::<usize>() > LIMIT).then_some(TOO_HIGH));
    due
}

/// g and h that are taken, with a product of the degrees within the limit, or above it.
pub fn degrees(too_high: bool, random: &mut Random) -> Asked {
    let m = inputs::modulus(random);
    let (r, s) = if too_high { degrees_too_high(random) } else { inputs::two_degrees(random) };
    let g = inputs::monic(random, r, m);
    let h = inputs::monic(random, s, m);
    Asked::two(m, g, h)
}

/// Often only just: the least s with r·s above the limit.
fn degrees_too_high(random: &mut Random) -> (usize, usize) {
    let first = random.between(2, LIMIT);
    let least = (LIMIT / first + 1).max(2);
    let second = match random.below(4) {
        0 => random.between(least, LIMIT),
        _ => least,
    };
    match random.once_in(2) {
        true => (second, first),
        false => (first, second),
    }
}
