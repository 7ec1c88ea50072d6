//! Find the left part g for a given f, the first polynomial, and h, the second: at random, of everything that is
//! tiny, and of all that is near some g(h).

use crate::common::*;
use crate::decomposition::{left_part, part_degrees};
use crate::inputs::choose;
use crate::near::{self, Near, Other, Walk};
use crate::shape;
use crate::tiny::{self, Size};

const UNFIT: Refused = Refused::plain(6);
const NO_LEFT_PART: Refused = Refused::plain(7);

const NORMAL: &str = "left part, h(0) zero";
const NOT_NORMAL: &str = "left part, h(0) not zero";
const NO_INVERSE: &str = "left part, n/s without an inverse";

pub const ENTRY: Entry = Entry {
    name: "left_part",
    operation: Operation::LeftPart,
    usual: || 80_000,
    input: |index, random| {
        let lines = damage::wanted(&table(2, &[UNFIT, NO_LEFT_PART]), index, random);
        let mut asked = if lines.contains(&UNFIT) {
            unfit(random)
        } else if lines.contains(&NO_LEFT_PART) {
            without_left_part(random)
        } else {
            planted(random)
        };
        damage::spoil(&mut asked, &lines, random);
        asked.into()
    },
    own: Some(own),
    kinds,
    wanted: || Wanted {
        order: table(2, &[UNFIT]),
        alone: vec![NO_LEFT_PART],
        kinds: vec![NORMAL, NOT_NORMAL, NO_INVERSE, "s above n", "s = n", "s not dividing n"],
        at_2_32: Some(vec![NORMAL, NOT_NORMAL, NO_INVERSE]),
        ..Wanted::default()
    },
    ..Entry::USUAL
};

pub fn own(asked: &Asked) -> Own {
    Own::new(Operation::LeftPart, asked, refusals_due(asked), || {
        left_part(asked.first(), asked.second(), asked.m).map(Answer::one).ok_or(NO_LEFT_PART)
    })
}

fn kinds(asked: &Asked, answer: &Answer) -> Vec<&'static str> {
    let [n, s] = asked.degrees()[..] else { return Vec::new() };
    match answer.refused {
        Refused::ANSWERED => {
            let constant = if asked.second().0[0] == 0 { NORMAL } else { NOT_NORMAL };
            let shares = shares_factor((n / s) as u64, asked.m);
            [constant].into_iter().chain(shares.then_some(NO_INVERSE)).collect()
        }
        UNFIT if s > n => vec!["s above n"],
        UNFIT if s == n => vec!["s = n"],
        UNFIT => vec!["s not dividing n"],
        _ => Vec::new(),
    }
}

/// 1, then 2, 3, 4 for f and for h, then 6: "for h, s does not divide n or n/s is below 2". A constant h divides no
/// degree.
fn refusals_due(asked: &Asked) -> Vec<Refused> {
    let mut due = asked.refusals_due();
    let (n, s) = (asked.degrees()[0], asked.degrees()[1]);
    due.extend((s == 0 || !n.is_multiple_of(s) || n / s < 2).then_some(UNFIT));
    due
}

/// f = g(h), with the h it was made from or with another constant: "whether h(0) is zero or not".
fn planted(random: &mut Random) -> Asked {
    let m = inputs::modulus(random);
    let (r, s) = inputs::two_degrees(random);
    let g = inputs::monic(random, r, m);
    let mut h = inputs::monic(random, s, m);
    let f = g.compose(&h, m).expect("r times s is within the limit");
    match random.below(4) {
        0 => h.0[0] = 0,
        1 => h.0[0] = inputs::residue(random, m),
        _ => {}
    }
    Asked::two(m, f, h)
}

/// h of a fitting degree, and f that is most likely no g(h): one coefficient of either is another, or nothing was
/// planted.
fn without_left_part(random: &mut Random) -> Asked {
    let asked = planted(random);
    let (m, f, h) = (asked.m, asked.first().clone(), asked.second().clone());
    match random.below(4) {
        0 => Asked::two(m, inputs::monic(random, asked.degree(), m), h),
        1 => Asked::two(m, f, shape::nearly(h, m, random)),
        _ => Asked::two(m, shape::nearly(f, m, random), h),
    }
}

/// s above n, s = n, or an s that does not divide n (where n is 2, there is none of these below n).
fn unfit(random: &mut Random) -> Asked {
    let m = inputs::modulus(random);
    let f = inputs::polynomial(random, m);
    let n = f.degree().expect("f is taken");
    let between: Vec<usize> = (2..n).filter(|s| !n.is_multiple_of(*s)).collect();
    let s = match random.below(3) {
        0 => n,
        1 if n < LIMIT => random.between(n + 1, LIMIT),
        _ if between.is_empty() => n,
        _ => random.pick(&between),
    };
    let h = inputs::monic(random, s, m);
    Asked::two(m, f, h)
}

// Every monic f of a tiny size for every h of a fitting degree, with the answer found by going through all g.

pub const TINY: Entry = Entry {
    name: "tiny_left_part",
    usual: || tiny_list().length(),
    is_list: true,
    input: |index, _| {
        let (((m, n), s), mut number) = tiny_list().at(index);
        let h = tiny::monic((m, s), choose(&mut number, tiny::count((m, s))));
        let f = tiny::monic((m, n), number);
        Asked::two(Modulus::of_word(m), f, h).into()
    },
    own: Some(|asked| {
        Own::new(Operation::LeftPart, asked, refusals_due(asked), || {
            let (f, h, m) = (asked.first(), asked.second(), asked.m);
            let found = tiny::left_part(f, h, m);
            assert!(found == left_part(f, h, m), "the two own ways to a left part differ");
            found.map(Answer::one).ok_or(NO_LEFT_PART)
        })
    }),
    kinds: |_, _| Vec::new(),
    wanted: || Wanted { alone: vec![NO_LEFT_PART], ..Wanted::default() },
    ..ENTRY
};

/// A size and the degree of h.
fn tiny_list() -> &'static List<(Size, usize)> {
    static LIST: OnceLock<List<(Size, usize)>> = OnceLock::new();
    let blocks = |&size: &Size| {
        let (m, n) = size;
        part_degrees(n).map(move |s| ((size, s), tiny::count(size) * tiny::count((m, s))))
    };
    LIST.get_or_init(|| List::of(tiny::LEFT_PART.iter().flat_map(blocks)))
}

// All degrees r and s, of g(h) itself and of every f that is another at one place.

/// With h(0) zero and not zero, and at any modulus.
fn walk() -> &'static Walk {
    static WALK: OnceLock<Walk> = OnceLock::new();
    WALK.get_or_init(|| Walk::new(&[true, false], near::moduli))
}

/// At 2^32 all but the last: with another coefficient there is a left part at x^0, and elsewhere for few h.
const NEAR_KINDS: [&str; 5] = [
    "g(h)",
    "other coefficient, no left part",
    "other digit, left part",
    "other digit, no left part",
    "other coefficient, left part",
];

pub const NEAR: Entry = Entry {
    name: "near_left_part",
    usual: || walk().length(),
    is_list: true,
    input: |index, random| {
        let Near { asked, other, known, .. } = walk().input(index, random);
        let made = move |answer: &Answer| {
            let found = answer.polynomials.first().filter(|_| !answer.is_refused());
            let fits = known.as_ref().is_none_or(|known| known.as_ref() == found);
            fits.then(|| match (other, found) {
                (Other::Nothing, _) => NEAR_KINDS[0],
                (Other::Coefficient, None) => NEAR_KINDS[1],
                (Other::OfDigit, Some(_)) => NEAR_KINDS[2],
                (Other::OfDigit, None) => NEAR_KINDS[3],
                (Other::Coefficient, Some(_)) => NEAR_KINDS[4],
            })
        };
        Input { asked, made: Some(Box::new(made)) }
    },
    kinds: |_, _| Vec::new(),
    wanted: || Wanted {
        alone: vec![NO_LEFT_PART],
        kinds: NEAR_KINDS.to_vec(),
        at_2_32: Some(NEAR_KINDS[..4].to_vec()),
        ..Wanted::default()
    },
    ..ENTRY
};
