//! Changes of unit and origin: of a polynomial, of a pair; two of them combined, one undone.

use super::compose::{self, APART, TOO_HIGH};
use crate::change::{self, Change};
use crate::common::*;
use crate::residue::inverse;

const BAD_MODULUS: Refused = Refused::plain(1);
const BAD_CHANGE: Refused = Refused::plain(8);

const TOO_LARGE: &str = "a too large, or b";
const NO_INVERSE: &str = "a without an inverse";

/// The changes that are taken, and those that are not; at 2^32 all but the first: no word is too large there.
const KINDS: [&str; 7] = [TOO_LARGE, NO_INVERSE, "a = 0", "(1, 0)", "(1, b)", "(a, 0)", "(a, b)"];

fn kinds(asked: &Asked, answer: &Answer) -> Vec<&'static str> {
    let kind = match (answer.refused, asked.change(0)) {
        (Refused::ANSWERED, [1, 0]) => "(1, 0)",
        (Refused::ANSWERED, [1, _]) => "(1, b)",
        (Refused::ANSWERED, [_, 0]) => "(a, 0)",
        (Refused::ANSWERED, _) => "(a, b)",
        (BAD_CHANGE, [a, b]) if !asked.m.is_above(a) || !asked.m.is_above(b) => TOO_LARGE,
        (BAD_CHANGE, [0, _]) => "a = 0",
        (BAD_CHANGE, _) => NO_INVERSE,
        _ => return Vec::new(),
    };
    vec![kind]
}

/// A change that is taken modulo m, or one that is not, if that is wanted.
fn any_change(m: Modulus, bad: bool, random: &mut Random) -> Change {
    match bad {
        true => damage::spoiled_change(m, random),
        false => inputs::change(random, m),
    }
}

/// The same, and once in a while (1, 0).
fn by_any_change(asked: Asked, lines: &[Refused], random: &mut Random) -> Asked {
    let bad = lines.contains(&BAD_CHANGE);
    let change = match !bad && random.below(16) == 0 {
        true => change::IDENTITY,
        false => any_change(asked.m, bad, random),
    };
    asked.by(change)
}

fn bad_change(asked: &Asked, which: usize) -> bool {
    change::refused(asked.change(which), asked.m)
}

// Of a polynomial.

pub const POLYNOMIAL: Entry = Entry {
    name: "change_polynomial",
    operation: Operation::ChangePolynomial,
    usual: || 80_000,
    input: |index, random| {
        let lines = damage::wanted(&table(1, &[BAD_CHANGE]), index, random);
        let m = inputs::modulus(random);
        let mut asked = Asked::one(m, inputs::polynomial(random, m));
        damage::spoil(&mut asked, &lines, random);
        by_any_change(asked, &lines, random).into()
    },
    own: Some(own_of_polynomial),
    kinds,
    wanted: || Wanted {
        order: table(1, &[BAD_CHANGE]),
        kinds: KINDS.to_vec(),
        at_2_32: Some(KINDS[1..].to_vec()),
        ..Wanted::default()
    },
    ..Entry::USUAL
};

pub fn own_of_polynomial(asked: &Asked) -> Own {
    let mut due = asked.refusals_due();
    due.extend(bad_change(asked, 0).then_some(BAD_CHANGE));
    Own::new(Operation::ChangePolynomial, asked, due, || {
        Ok(Answer::one(change::of_polynomial(asked.first(), asked.change(0), asked.m)))
    })
}

// Of a pair: g is the first polynomial, h the second.

pub const PAIR: Entry = Entry {
    name: "change_pair",
    operation: Operation::ChangePair,
    input: |index, random| {
        let lines = damage::wanted(&table(2, &[TOO_HIGH, BAD_CHANGE]), index, random);
        let mut asked = compose::degrees(lines.contains(&TOO_HIGH), random);
        damage::spoil(&mut asked, &lines, random);
        by_any_change(asked, &lines, random).into()
    },
    own: Some(own_of_pair),
    wanted: || Wanted { order: table(2, &[TOO_HIGH, BAD_CHANGE]), apart: APART.to_vec(), ..(POLYNOMIAL.wanted)() },
    ..POLYNOMIAL
};

/// 1, then 2, 3, 4 for g and for h; "change of a pair 10, 8".
pub fn own_of_pair(asked: &Asked) -> Own {
    let mut due = compose::refusals_due(asked);
    due.extend(bad_change(asked, 0).then_some(BAD_CHANGE));
    Own::new(Operation::ChangePair, asked, due, || {
        Ok(Answer::two(change::of_pair(asked.first(), asked.second(), asked.change(0), asked.m)))
    })
}

// Two changes combined, and one undone: in whole numbers at every modulus.

const BAD: [&str; 3] = ["only the first bad", "only the second bad", "both bad"];

/// A modulus, and as many changes as are to be bad or not.
fn changes(lines: &[Refused], bad: impl FnOnce(bool, &mut Random) -> Vec<bool>, random: &mut Random) -> Asked {
    let m = match lines.contains(&BAD_MODULUS) {
        true => damage::spoiled_modulus(random),
        false => inputs::modulus(random),
    };
    let bad = bad(lines.contains(&BAD_CHANGE), random);
    bad.into_iter().fold(Asked::none(m), |asked, bad| asked.by(any_change(m, bad, random)))
}

/// "Combining tests 1, then 8 for the first change, then the second; undoing tests 1, then 8."
fn refusals_due(asked: &Asked) -> Vec<Refused> {
    let bad = (0..asked.numbers.len() / 2).any(|which| bad_change(asked, which));
    let mut due = asked.refusals_due();
    due.extend(bad.then_some(BAD_CHANGE));
    due
}

fn answered(m: Modulus, change: [i128; 2]) -> Answer {
    Answer::numbers(&change.map(|number| number.rem_euclid(i128::from(m.number())) as usize))
}

pub const COMBINE: Entry = Entry {
    name: "combine",
    operation: Operation::Combine,
    usual: || 150_000,
    input: |index, random| {
        let lines = damage::wanted(&[BAD_MODULUS, BAD_CHANGE], index, random);
        let bad = |bad, random: &mut Random| match bad {
            true => random.pick(&[[true, false], [false, true], [true, true]]).to_vec(),
            false => vec![false, false],
        };
        changes(&lines, bad, random).into()
    },
    own: Some(own_combined),
    kinds: |asked, answer| match [bad_change(asked, 0), bad_change(asked, 1)] {
        _ if answer.refused != BAD_CHANGE => Vec::new(),
        [true, false] => vec![BAD[0]],
        [false, true] => vec![BAD[1]],
        _ => vec![BAD[2]],
    },
    wanted: || Wanted {
        order: vec![BAD_MODULUS, BAD_CHANGE],
        kinds: BAD.to_vec(),
        at_2_32: Some(BAD.to_vec()),
        ..Wanted::default()
    },
    ..Entry::USUAL
};

/// "First (a, b), then (a2, b2), is the one change (a·a2, a·b2 + b)."
pub fn own_combined(asked: &Asked) -> Own {
    Own::new(Operation::Combine, asked, refusals_due(asked), || {
        let ([a, b], [a2, b2]) = (asked.change(0).map(i128::from), asked.change(1).map(i128::from));
        Ok(answered(asked.m, [a * a2, a * b2 + b]))
    })
}

pub const UNDO: Entry = Entry {
    name: "undo",
    operation: Operation::Undo,
    input: |index, random| {
        let lines = damage::wanted(&[BAD_MODULUS, BAD_CHANGE], index, random);
        changes(&lines, |bad, _| vec![bad], random).into()
    },
    own: Some(own_undone),
    kinds: |asked, answer| match kinds(asked, answer)[..] {
        [kind @ TOO_LARGE] => vec![kind],
        _ if answer.refused == BAD_CHANGE => vec![NO_INVERSE],
        _ => Vec::new(),
    },
    wanted: || Wanted {
        order: vec![BAD_MODULUS, BAD_CHANGE],
        kinds: vec![TOO_LARGE, NO_INVERSE],
        at_2_32: Some(vec![NO_INVERSE]),
        ..Wanted::default()
    },
    ..COMBINE
};

/// "The undoing of (a, b) is (1/a, -b/a)."
pub fn own_undone(asked: &Asked) -> Own {
    Own::new(Operation::Undo, asked, refusals_due(asked), || {
        let [a, b] = asked.change(0);
        let one_ath = i128::from(inverse(a, asked.m).expect("a has an inverse"));
        Ok(answered(asked.m, [one_ath, -i128::from(b) * one_ath]))
    })
}
