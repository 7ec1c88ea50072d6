//! Split f at a left degree r: at random, of everything that is tiny, and of all that is near some g(h).

use crate::common::*;
use crate::decomposition::{pair, part_degrees};
use crate::near::{moduli_inverting, Walk, MODULI};
use crate::shape::{self, Shape};
use crate::tiny::{self, Size};

pub const UNFIT: Refused = Refused::plain(6);
pub const SHARING: Refused = Refused::plain(5);
pub const NO_PAIR: Refused = Refused::plain(7);

pub fn order() -> Vec<Refused> {
    table(1, &[UNFIT, SHARING])
}

const HIGHEST: &str = "highest degree";
const BOTH_ODD: &str = "r and s odd";
const RIGHT_EVEN: &str = "r odd, s even";
pub const UNFITTING: [&str; 6] = ["r = 0", "r = 1", "r = n", "r above n", "r of more than 4 bytes", "r not dividing n"];

pub const ENTRY: Entry = Entry {
    name: "split",
    operation: Operation::Split,
    usual: || 120_000,
    input: |index, random| input(index, random).into(),
    own: Some(own),
    kinds: |asked, answer| match answer.refused {
        Refused::ANSWERED => kinds_answered(asked),
        UNFIT => vec![kind_unfit(asked)],
        _ => Vec::new(),
    },
    wanted: || Wanted {
        order: order(),
        alone: vec![NO_PAIR],
        kinds: [&inputs::KINDS[..], &[HIGHEST, BOTH_ODD, RIGHT_EVEN], &UNFITTING].concat(),
        at_2_32: Some(vec![HIGHEST, BOTH_ODD, RIGHT_EVEN]),
        ..Wanted::default()
    },
    ..Entry::USUAL
};

pub fn own(asked: &Asked) -> Own {
    Own::new(Operation::Split, asked, refusals_due(asked), || {
        pair(asked.first(), asked.number(), asked.m).map(Answer::two).ok_or(NO_PAIR)
    })
}

fn kinds_answered(asked: &Asked) -> Vec<&'static str> {
    let (n, r) = (asked.degree(), asked.number());
    let degrees = match [r, n / r].map(|degree| degree % 2) {
        [1, 1] => Some(BOTH_ODD),
        [1, 0] => Some(RIGHT_EVEN),
        _ => None,
    };
    let modulus = inputs::kind_of_modulus(asked.m);
    modulus.into_iter().chain((n == LIMIT).then_some(HIGHEST)).chain(degrees).collect()
}

pub fn kind_unfit(asked: &Asked) -> &'static str {
    let (n, r) = (asked.degree(), asked.number());
    match r {
        0 => "r = 0",
        1 => "r = 1",
        _ if r == n => "r = n",
        _ if r > u32::MAX as usize => "r of more than 4 bytes",
        _ if r > n => "r above n",
        _ => "r not dividing n",
    }
}

/// 1, 2, 3, 4, then 6: "r below 2, not dividing n, or n/r below 2"; then 5: "r and m share a factor above 1".
pub fn refusals_due(asked: &Asked) -> Vec<Refused> {
    let mut due = asked.refusals_due();
    let (n, r) = (asked.degree(), asked.number());
    due.extend((r < 2 || !n.is_multiple_of(r) || n / r < 2).then_some(UNFIT));
    due.extend(shares_factor(r as u64, asked.m).then_some(SHARING));
    due
}

// The inputs.

/// Every fourth input is the next of all degrees n and all r from 0 to n + 1.
fn input(index: u64, random: &mut Random) -> Asked {
    if index % 4 == 3 {
        return at_every_r(index / 4, random);
    }
    let lines = damage::wanted(&table(1, &[UNFIT, SHARING, NO_PAIR]), index - index / 4, random);
    let mut asked = good(&lines, random);
    damage::spoil(&mut asked, &lines, random);
    asked
}

/// An input on which those of the lines are due that are about r.
pub fn good(lines: &[Refused], random: &mut Random) -> Asked {
    let wants = |line: Refused| lines.contains(&line);
    match (wants(UNFIT), wants(SHARING)) {
        (true, sharing) => unfit(sharing, random),
        (false, true) => sharing(random),
        (false, false) if wants(NO_PAIR) => without_pair(random),
        (false, false) => fitting(random),
    }
}

/// Any shape that can be split, at a left degree with an inverse: the planted one, or any other.
fn fitting(random: &mut Random) -> Asked {
    let shape = any_splitting(random);
    let n = shape.degree();
    let r = match shape {
        Shape::Planted(ref degrees) if random.below(4) > 0 => {
            let left = random.between(1, degrees.len() - 1);
            degrees[..left].iter().product()
        }
        _ => left_degree(n, random),
    };
    let m = inputs::modulus_without(r, random);
    Asked::one(m, shape.polynomial(m, random)).at(r)
}

/// A shape whose degree is not prime.
fn any_splitting(random: &mut Random) -> Shape {
    loop {
        let shape = Shape::random(random);
        if part_degrees(shape.degree()).next().is_some() {
            return shape;
        }
    }
}

pub fn left_degree(n: usize, random: &mut Random) -> usize {
    let fitting: Vec<usize> = part_degrees(n).collect();
    random.pick(&fitting)
}

/// Most likely f does not split at r.
fn without_pair(random: &mut Random) -> Asked {
    let asked = fitting(random);
    let m = asked.m;
    let other = match random.below(3) {
        0 => inputs::monic(random, asked.degree(), m),
        _ => shape::nearly(asked.first().clone(), m, random),
    };
    Asked::one(m, other).at(asked.number())
}

/// r fits and shares a factor with m, whether f splits there or not.
fn sharing(random: &mut Random) -> Asked {
    let shape = any_splitting(random);
    let r = left_degree(shape.degree(), random);
    let m = inputs::modulus_sharing(r, random);
    Asked::one(m, shape.polynomial(m, random)).at(r)
}

/// r that does not fit; it shares a factor with m or does not.
fn unfit(sharing: bool, random: &mut Random) -> Asked {
    let shape = Shape::random(random);
    let r = unfit_left_degree(shape.degree(), random);
    let m = match sharing {
        // Any m shares a factor with 0, none with 1.
        true if (2..1_000).contains(&r) => inputs::modulus_sharing(r, random),
        _ => inputs::modulus(random),
    };
    Asked::one(m, shape.polynomial(m, random)).at(r)
}

/// "Left degree r is any machine word" (the readings of 01, point 1): also such as look like a fitting one in their
/// low 4 bytes.
fn unfit_left_degree(n: usize, random: &mut Random) -> usize {
    let between: Vec<usize> = (2..n).filter(|r| !n.is_multiple_of(*r)).collect();
    match random.below(8) {
        0 => 0,
        1 => 1,
        2 => n,
        3 => random.pick(&[n + 1, 2 * n, TERMS, TERMS + 1, 2 * TERMS]),
        4 => random.pick(&[usize::MAX, 1 << 32, 1 << 63]),
        5 => (1 << 32) + random.between(0, n),
        _ if between.is_empty() => n,
        _ => random.pick(&between),
    }
}

/// All n up to the limit, and for each all r from 0 to n + 1: that is n + 2 of them.
pub fn at_every_r(place: u64, random: &mut Random) -> Asked {
    let every = List::of((2..=LIMIT).map(|n| (n, n as u64 + 2)));
    let (n, r) = every.by_steps(place, 4_001);
    let r = r as usize;
    let m = match r {
        0 | 1 => inputs::modulus(random),
        _ if random.once_in(8) => inputs::modulus(random),
        _ => inputs::modulus_without(r, random),
    };
    let fits = part_degrees(n).any(|d| d == r);
    let planted = fits && random.below(4) > 0;
    let shape = if planted { Shape::Planted(vec![r, n / r]) } else { Shape::Any(n) };
    Asked::one(m, shape.polynomial(m, random)).at(r)
}

// Every monic f of a tiny size at every left degree that fits, with the answer found by going through all g and h.

/// A size and the left degree.
pub type Block = (Size, usize);

/// The f of that number in the block, at its left degree.
pub fn numbered(((size, r), number): (Block, u64)) -> Asked {
    Asked::one(Modulus::of_word(size.0), tiny::monic(size, number)).at(r)
}

fn tiny_list() -> &'static List<Block> {
    static LIST: OnceLock<List<Block>> = OnceLock::new();
    let blocks = |&size: &Size| part_degrees(size.1).map(move |r| ((size, r), tiny::count(size)));
    LIST.get_or_init(|| List::of(tiny::SPLIT.iter().flat_map(blocks)))
}

pub const TINY: Entry = Entry {
    name: "tiny_split",
    usual: || tiny_list().length(),
    is_list: true,
    input: |index, _| numbered(tiny_list().at(index)).into(),
    own: Some(|asked| {
        Own::new(Operation::Split, asked, refusals_due(asked), || {
            let (f, r, m) = (asked.first(), asked.number(), asked.m);
            let found = tiny::pair(f, r, m);
            assert!(found == pair(f, r, m), "the two own ways to a pair differ");
            found.map(Answer::two).ok_or(NO_PAIR)
        })
    }),
    kinds: |_, _| Vec::new(),
    wanted: || Wanted { order: vec![SHARING], alone: vec![NO_PAIR], ..Wanted::default() },
    ..ENTRY
};

// All degrees r and s, of g(h) itself and of every f that is another at one place. Where that place is none of the
// leading terms, the right part is that h still, and the left part for it decides.

/// With h(0) zero, and at the moduli that give r an inverse.
fn walk() -> &'static Walk {
    static WALK: OnceLock<Walk> = OnceLock::new();
    WALK.get_or_init(|| Walk::new(&[true], |r| moduli_inverting(r, &MODULI)))
}

pub const NEAR: Entry = Entry {
    name: "near_split",
    usual: || walk().length(),
    is_list: true,
    input: |index, random| {
        let near = walk().input(index, random);
        Asked::one(near.asked.m, near.asked.first().clone()).at(near.r).into()
    },
    kinds: |_, _| Vec::new(),
    wanted: || Wanted { alone: vec![NO_PAIR], at_2_32: Some(Vec::new()), ..Wanted::default() },
    ..ENTRY
};
