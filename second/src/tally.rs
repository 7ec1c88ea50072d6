//! How many inputs were compared, and what they were answered or refused with.

use crate::refused::Refused;
use std::collections::{BTreeMap, BTreeSet};

/// What has to be met by a comparison of many inputs: one that did not meet it could not have failed on it.
#[derive(Default)]
pub struct Wanted {
    /// The lines of the table that can be given, in 01's order.
    pub order: Vec<Refused>,
    /// Those that are found only when no other is due.
    pub alone: Vec<Refused>,
    /// Pairs of `order` that cannot be due on one input.
    pub apart: Vec<(Refused, Refused)>,
    /// Kinds of inputs and answers, in words.
    pub kinds: Vec<&'static str>,
    /// Those of them that have to be met at modulus 2^32 too, and with them every number that can be given there;
    /// nothing where no input is at 2^32.
    pub at_2_32: Option<Vec<&'static str>>,
}

impl Wanted {
    fn lines(&self) -> Vec<Refused> {
        [&[Refused::ANSWERED], &self.order[..], &self.alone].concat()
    }

    /// The pairs of lines that can be due on one input, the earlier one first.
    fn together(&self) -> Vec<(Refused, Refused)> {
        let mut pairs = Vec::new();
        for (i, &first) in self.order.iter().enumerate() {
            pairs.extend(self.order[i + 1..].iter().map(|&later| (first, later)));
        }
        pairs.retain(|pair| !self.apart.contains(pair));
        pairs
    }

    /// All numbers of the lines but 1 and 2, which cannot be given there.
    fn numbers_at_2_32(&self) -> BTreeSet<u32> {
        let numbers = self.lines().into_iter().map(|line| line.number);
        numbers.filter(|number| ![1, 2].contains(number)).collect()
    }
}

#[derive(Default)]
pub struct Tally {
    pub inputs: u64,
    /// By line of the table; number 0 is "answered".
    given: BTreeMap<Refused, u64>,
    /// Inputs on which two refusals were due at once, the one given by 01's order before the other. Only on these
    /// does the order matter.
    together: BTreeMap<(Refused, Refused), u64>,
    kinds: BTreeMap<&'static str, u64>,
    at_2_32: At2To32,
}

/// The inputs at modulus 2^32 alone.
#[derive(Default)]
struct At2To32 {
    inputs: u64,
    /// By number.
    given: BTreeMap<u32, u64>,
    kinds: BTreeMap<&'static str, u64>,
}

impl At2To32 {
    fn count(&mut self, given: Refused, kinds: &[&'static str]) {
        self.inputs += 1;
        *self.given.entry(given.number).or_default() += 1;
        for kind in kinds {
            *self.kinds.entry(kind).or_default() += 1;
        }
    }

    fn add(&mut self, other: At2To32) {
        self.inputs += other.inputs;
        add_all(&mut self.given, other.given);
        add_all(&mut self.kinds, other.kinds);
    }

    /// What is wanted, and how often it was met.
    fn met(&self, wanted: &Wanted) -> Vec<(String, u64)> {
        let Some(kinds) = &wanted.at_2_32 else {
            return Vec::new();
        };
        let given = |number| (Refused::plain(number).brief(), times(&self.given, &number));
        let kind = |kind: &&'static str| (kind.to_string(), times(&self.kinds, kind));
        let numbers = wanted.numbers_at_2_32().into_iter().map(given);
        numbers.chain(kinds.iter().map(kind)).collect()
    }
}

fn times<K: Ord>(counts: &BTreeMap<K, u64>, key: &K) -> u64 {
    counts.get(key).copied().unwrap_or(0)
}

fn add_all<K: Ord>(counts: &mut BTreeMap<K, u64>, others: BTreeMap<K, u64>) {
    for (key, times) in others {
        *counts.entry(key).or_default() += times;
    }
}

impl Tally {
    /// Of further inputs.
    pub fn add(&mut self, other: Tally) {
        self.inputs += other.inputs;
        add_all(&mut self.given, other.given);
        add_all(&mut self.together, other.together);
        add_all(&mut self.kinds, other.kinds);
        self.at_2_32.add(other.at_2_32);
    }

    /// Of one input; `at_2_32` is whether its modulus is 2^32.
    pub fn count(&mut self, given: Refused, due: &[Refused], kinds: &[&'static str], at_2_32: bool) {
        if at_2_32 {
            self.at_2_32.count(given, kinds);
        }
        self.inputs += 1;
        *self.given.entry(given.line()).or_default() += 1;
        for (i, first) in due.iter().enumerate() {
            for later in &due[i + 1..] {
                let pair = (first.line(), later.line());
                *self.together.entry(pair).or_default() += 1;
            }
        }
        for kind in kinds {
            *self.kinds.entry(kind).or_default() += 1;
        }
    }

    pub fn never_met(&self, wanted: &Wanted) -> Vec<String> {
        let given = |line: &Refused| times(&self.given, line);
        let lines = wanted.lines().into_iter().filter(|line| given(line) == 0);
        let both = |pair: &(Refused, Refused)| times(&self.together, pair);
        let pairs = wanted.together().into_iter().filter(|pair| both(pair) == 0);
        let kinds = wanted.kinds.iter().filter(|kind| times(&self.kinds, kind) == 0);
        let at_2_32 = self.at_2_32.met(wanted).into_iter();
        let not_at_2_32 = at_2_32.filter(|(_, times)| *times == 0);
        lines
            .map(Refused::brief)
            .chain(pairs.map(|(a, b)| format!("{} where {} was due too", a.brief(), b.brief())))
            .chain(kinds.map(|kind| kind.to_string()))
            .chain(not_at_2_32.map(|(what, _)| format!("{what} at 2^32")))
            .collect()
    }

    pub fn report(&self, name: &str, wanted: &Wanted) -> String {
        let given = |line: &Refused| (line.brief(), times(&self.given, line));
        let mut lines = vec![format!("{} inputs compared, no difference", self.inputs)];
        lines.push(format!("  {}", listed(wanted.lines().iter().map(given))));
        if let Some((pairs, fewest)) = self.order_tested(wanted) {
            lines.push(format!("  pairs of refusals due at once: {pairs}, each {fewest} times or more"));
        }
        if !wanted.kinds.is_empty() {
            let met = |kind: &&'static str| (kind.to_string(), times(&self.kinds, kind));
            lines.push(format!("  {}", listed(wanted.kinds.iter().map(met))));
        }
        if wanted.at_2_32.is_some() {
            let met = listed(self.at_2_32.met(wanted).into_iter());
            lines.push(format!("  at 2^32 {} inputs: {met}", self.at_2_32.inputs));
        }
        lines.iter().map(|line| format!("{name}: {line}\n")).collect()
    }

    /// The number of pairs, and how often the rarest of them was due.
    fn order_tested(&self, wanted: &Wanted) -> Option<(usize, u64)> {
        let pairs = wanted.together();
        let fewest = pairs.iter().map(|pair| times(&self.together, pair)).min()?;
        Some((pairs.len(), fewest))
    }
}

fn listed(counts: impl Iterator<Item = (String, u64)>) -> String {
    let items: Vec<_> = counts.map(|(what, times)| format!("{what} {times}")).collect();
    items.join(", ")
}
