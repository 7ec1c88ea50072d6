//! Every complete chain (request No. 5) by this program's own method: not a search that goes on wherever f splits,
//! but all the degrees that the parts of a chain could have, each list of them tried, and what is found is sorted.

use crate::decomposition::{part_degrees, Pair};
use crate::polynomial::Polynomial;
use std::collections::HashMap;

/// The parts of a chain, left to right.
pub type Parts = Vec<Polynomial>;

/// The degrees of a chain's parts, the one next to x first.
pub type FromTheRight = Vec<usize>;

pub fn from_the_right(parts: &[Polynomial]) -> FromTheRight {
    let degrees = parts.iter().filter_map(Polynomial::degree);
    degrees.rev().collect()
}

/// Every list of numbers, 2 or more each, with the product n. No f of degree n has more chains than there are lists:
/// at each right degree there is at most one normal pair.
pub fn factorisations(n: usize) -> Vec<FromTheRight> {
    if n == 1 {
        return vec![Vec::new()];
    }
    let last = (2..=n).filter(|d| n.is_multiple_of(*d));
    let ending_in = |d: usize| {
        let others = factorisations(n / d).into_iter();
        others.map(move |list| [list, vec![d]].concat())
    };
    last.flat_map(ending_in).collect()
}

/// Every normal complete chain of f, in the order of request No. 5: "by their degrees read from the right, smaller
/// degree first at the first difference". `pair` gives the normal pair at r if there is one.
pub fn every_chain(f: &Polynomial, pair: impl Fn(&Polynomial, usize) -> Option<Pair>) -> Vec<Parts> {
    let n = f.degree().expect("f is taken");
    let mut trials = Trials::of(f, pair);
    let mut found: Vec<(FromTheRight, Parts)> =
        factorisations(n).into_iter().filter_map(|degrees| Some((degrees.clone(), trials.chain(&degrees)?))).collect();
    found.sort_by(|(one, _), (other, _)| one.cmp(other));
    found.into_iter().map(|(_, parts)| parts).collect()
}

/// f with some parts taken off its right end: f is `rest` after them.
#[derive(Clone)]
struct Begun {
    rest: Polynomial,
    /// The one next to x first.
    off: Vec<Polynomial>,
}

/// What is known of f by the degrees of the parts taken off: nothing where f has no such right end, or where a part
/// of it splits. Many lists of degrees begin alike.
struct Trials<P> {
    pair: P,
    begun: HashMap<FromTheRight, Option<Begun>>,
}

impl<P: Fn(&Polynomial, usize) -> Option<Pair>> Trials<P> {
    fn of(f: &Polynomial, pair: P) -> Trials<P> {
        let whole = Begun { rest: f.clone(), off: Vec::new() };
        Trials { pair, begun: HashMap::from([(Vec::new(), Some(whole))]) }
    }

    /// The chain of these degrees, if there is one.
    fn chain(&mut self, degrees: &[usize]) -> Option<Parts> {
        let (_, right) = degrees.split_last()?;
        let Begun { rest, off } = self.begun(right)?;
        let from_the_left = [rest.clone()].into_iter().chain(off.into_iter().rev());
        (!self.splits(&rest)).then(|| from_the_left.collect())
    }

    fn begun(&mut self, degrees: &[usize]) -> Option<Begun> {
        if let Some(known) = self.begun.get(degrees) {
            return known.clone();
        }
        let found = self.one_more_off(degrees);
        self.begun.insert(degrees.to_vec(), found.clone());
        found
    }

    fn one_more_off(&mut self, degrees: &[usize]) -> Option<Begun> {
        let (s, before) = degrees.split_last()?;
        let Begun { rest, mut off } = self.begun(before)?;
        let n = rest.degree().expect("a part has a degree");
        let (g, h) = (self.pair)(&rest, n / s)?;
        if self.splits(&h) {
            return None;
        }
        off.push(h);
        Some(Begun { rest: g, off })
    }

    /// "Complete means that no part splits": at no degree at all.
    fn splits(&self, part: &Polynomial) -> bool {
        let n = part.degree().expect("a part has a degree");
        part_degrees(n).any(|r| (self.pair)(part, r).is_some())
    }
}
