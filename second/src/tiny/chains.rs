//! All complete chains of a tiny size, by going through all lists of parts that are compositions of nothing. Nothing
//! is split here, and no list of degrees is made beforehand: a chain is a part after a chain.

use super::{all, composed, Size};
use crate::decomposition::part_degrees;
use crate::every_chain::Parts;
use crate::modulus::Modulus;
use crate::polynomial::Polynomial;
use std::collections::{BTreeSet, HashMap};
use std::sync::OnceLock;

/// The sizes of which every f is asked for.
pub const EVERY: &[Size] = &[(3, 4), (5, 4), (7, 4), (9, 4), (5, 6), (3, 8), (2, 9)];

/// Those of which every composition is.
pub const COMPOSED: &[Size] =
    &[(11, 4), (15, 4), (7, 6), (5, 8), (4, 9), (3, 10), (2, 15), (2, 21), (2, 25), (2, 27), (2, 35)];

/// Those of which every f that has several chains is: at degree 12 also three.
pub const SEVERAL: &[Size] = &[(11, 6), (5, 12), (3, 14), (4, 15), (2, 33)];

/// As few words as it has: there are many of them.
type Coefficients = Vec<u32>;

/// Parts, left to right.
type Chain = Vec<Coefficients>;

/// What is known of one size.
struct Table {
    /// The f that are asked for, where they are not all; each once.
    listed: Vec<Coefficients>,
    /// The chains of two parts or more, by what they compose to.
    chains: HashMap<Coefficients, Vec<Chain>>,
}

/// All chains of f, in the order of request No. 5.
pub fn chains(f: &Polynomial, m: Modulus) -> Vec<Parts> {
    let table = table((m.word(), f.degree().expect("f is taken")));
    let parts = |chain: &Chain| chain.iter().map(|part| Polynomial::of(part)).collect();
    match table.chains.get(f.used()) {
        Some(chains) => chains.iter().map(parts).collect(),
        None => vec![vec![f.clone()]],
    }
}

/// The f of this size that are asked for.
pub fn listed(size: Size) -> &'static [Coefficients] {
    &table(size).listed
}

fn table(size: Size) -> &'static Table {
    static TABLES: OnceLock<HashMap<Size, Table>> = OnceLock::new();
    let made = |&size: &Size| (size, made(size));
    let sizes = || EVERY.iter().chain(COMPOSED).chain(SEVERAL);
    &TABLES.get_or_init(|| sizes().map(made).collect())[&size]
}

fn made(size: Size) -> Table {
    let mut chains: HashMap<Coefficients, Vec<Chain>> = HashMap::new();
    of_several_parts(size, |_| true, &mut |chain, whole| {
        chains.entry(whole).or_default().push(chain);
    });
    for list in chains.values_mut() {
        list.sort_by_key(from_the_right);
    }
    let listed = match SEVERAL.contains(&size) {
        true => {
            let several = chains.iter().filter(|(_, list)| list.len() > 1);
            several.map(|(whole, _)| whole.clone()).collect::<BTreeSet<_>>()
        }
        false => {
            let all = compositions(size);
            let same = all.len() == chains.len() && all.iter().all(|f| chains.contains_key(f));
            assert!(same, "not all compositions have such a chain");
            all
        }
    };
    Table { listed: listed.into_iter().collect(), chains }
}

/// The degrees of the parts.
fn from_the_right(chain: &Chain) -> Vec<usize> {
    chain.iter().rev().map(|part| part.len() - 1).collect()
}

fn normal(part: &Polynomial) -> bool {
    part.0[0] == 0
}

/// Every g(h) of this size, where h(0) is 0: any other can be moved into g.
fn compositions((m, n): Size) -> BTreeSet<Coefficients> {
    let mut found = BTreeSet::new();
    for r in part_degrees(n) {
        for h in all((m, n / r)).filter(normal) {
            found.extend(all((m, r)).map(|g| composed(&g, &h, m)));
        }
    }
    found
}

/// What can be a part of a complete chain.
fn no_compositions(size: Size) -> impl Iterator<Item = Polynomial> {
    let compositions = compositions(size);
    all(size).filter(move |f| !compositions.contains(f.used()))
}

/// Every chain of two parts or more whose leftmost part is such a one, with what it composes to: a part after a chain
/// of normal parts.
fn of_several_parts((m, n): Size, leftmost: fn(&Polynomial) -> bool, each: &mut dyn FnMut(Chain, Coefficients)) {
    for s in part_degrees(n) {
        let left: Parts = no_compositions((m, n / s)).filter(leftmost).collect();
        for (chain, right) in normal_chains((m, s)) {
            for part in &left {
                let longer = [vec![part.used().to_vec()], chain.clone()].concat();
                each(longer, composed(part, &right, m));
            }
        }
    }
}

/// Every chain of normal parts, one or more, with what it composes to.
fn normal_chains(size: Size) -> Vec<(Chain, Polynomial)> {
    let alone = |part: Polynomial| (vec![part.used().to_vec()], part);
    let mut chains: Vec<_> = no_compositions(size).filter(normal).map(alone).collect();
    of_several_parts(size, normal, &mut |chain, whole| {
        chains.push((chain, Polynomial::of(&whole)));
    });
    chains
}
