//! x^n and one more term, whose square vanishes: f = x^n + q·x^i with q^2 = 0 modulo m. Its chains are known by
//! counting alone, and they need not have the same number of parts.
//!
//! Let a and b have multiples of q for coefficients. Then x^r + a after x^s + b is x^n + a(x^s) + r·x^(n-s)·b, since
//! all else vanishes. So f splits at s exactly if s divides i, and the term goes to the left part as x^(i/s), or if i
//! is above n - s, and it goes to the right part as x^(i-n+s).

use crate::asked::Asked;
use crate::decomposition::part_degrees;
use crate::desk::LIMIT;
use crate::every_chain::{factorisations, FromTheRight};
use crate::inputs;
use crate::list::List;
use crate::modulus::Modulus;
use crate::random::Random;
use crate::residue::{multiply, shares_factor};
use crate::shape::{moved, plain_power};
use std::iter;
use std::sync::OnceLock;

/// A modulus word, and a number whose square it divides. For each n one of them shares no factor with it: 2·3·5·7·11
/// is above the limit.
#[rustfmt::skip]
const MODULI: [(u32, u32); 9] = [
    (4, 2), (9, 3), (25, 5), (49, 7), (121, 11), (65_536, 256), (214_358_881, 14_641), (0, 65_536), (0, 1 << 31),
];

/// n, and i where there is another term.
type Near = (usize, Option<usize>);

/// The left part and the right one at s.
fn pair((n, term): Near, s: usize) -> Option<(Near, Near)> {
    let r = n / s;
    match term {
        None => Some(((r, None), (s, None))),
        Some(i) if i.is_multiple_of(s) => Some(((r, Some(i / s)), (s, None))),
        Some(i) if i > n - s => Some(((r, None), (s, Some(i + s - n)))),
        Some(_) => None,
    }
}

fn splits(near: Near) -> bool {
    part_degrees(near.0).any(|s| pair(near, s).is_some())
}

fn is_chain(near: Near, degrees: &[usize]) -> bool {
    let (_, right) = degrees.split_last().expect("n is 2 or more");
    let whole_part_off = |rest, &s: &usize| {
        let (left, right) = pair(rest, s)?;
        (!splits(right)).then_some(left)
    };
    let leftmost = right.iter().try_fold(near, whole_part_off);
    leftmost.is_some_and(|part| !splits(part))
}

/// The degrees of all chains, in the order of request No. 5.
fn chains(near: Near) -> Vec<FromTheRight> {
    let mut chains = factorisations(near.0);
    chains.retain(|degrees| is_chain(near, degrees));
    chains.sort();
    chains
}

/// Half of them have another unit and origin.
fn asked((n, term): Near, random: &mut Random) -> Asked {
    let fits = |(word, _): &(u32, u32)| !shares_factor(n as u64, Modulus::of_word(*word));
    let fitting: Vec<_> = MODULI.into_iter().filter(fits).collect();
    let (word, root) = random.pick(&fitting);
    let m = Modulus::of_word(word);
    let mut f = plain_power(n);
    if let Some(i) = term {
        f.0[i] = iter::repeat_with(|| multiply(root, inputs::residue(random, m), m))
            .find(|&q| q != 0)
            .expect("the root itself is not 0");
    }
    Asked::one(m, moved(f, m, random))
}

/// All n that are not prime, and all i below n.
pub struct Walk(List<usize>);

impl Walk {
    pub fn new() -> Walk {
        Walk(List::of(degrees().map(|n| (n, n as u64))))
    }

    /// The polynomial, and the degrees of its chains.
    pub fn input(&self, index: u64, random: &mut Random) -> (Asked, Vec<FromTheRight>) {
        let (n, i) = self.0.at(index);
        let near = (n, Some(i as usize));
        (asked(near, random), chains(near))
    }
}

fn degrees() -> impl Iterator<Item = usize> {
    (2..=LIMIT).filter(|&n| part_degrees(n).next().is_some())
}

/// One whose chains have not all the same number of parts; half the time n is odd, so that m may be 2^32.
pub fn of_several_lengths(random: &mut Random) -> Asked {
    static FOUND: OnceLock<[Vec<Near>; 2]> = OnceLock::new();
    let [even, odd] = FOUND.get_or_init(|| {
        let with = |n: usize| (0..n).map(move |i| (n, Some(i)));
        let found = degrees().flat_map(with).filter(|&near| lengths_differ(near));
        let (even, odd) = found.partition(|(n, _)| n.is_multiple_of(2));
        [even, odd]
    });
    let near = match random.once_in(2) {
        true => random.pick(even),
        false => random.pick(odd),
    };
    asked(near, random)
}

fn lengths_differ(near: Near) -> bool {
    let chains = chains(near);
    chains.iter().any(|chain| chain.len() != chains[0].len())
}
