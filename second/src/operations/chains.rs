//! Every complete chain (request No. 5): the number of them, the j-th, and both together, at random and of everything
//! that is tiny.

use super::chain::{self, any_area, chained, kind_long, kind_short, modulus_for, nearly_at_times, taken};
use super::chain::{of_odd_parts, of_parts, AREAS, ODD_PARTS, SHARING};
use crate::call::call;
use crate::common::*;
use crate::decomposition::{pair, part_degrees};
use crate::every_chain::{every_chain, factorisations, from_the_right, FromTheRight, Parts};
use crate::near_power;
use crate::powers;
use crate::shape::{several, Shape};
use crate::tiny::{self, Size};

// The number of them.

const CHAINS: [&str; 5] = ["1 chain", "2 chains", "3 chains", "4 to 9 chains", "10 chains or more"];

/// What x^105 has is the most that is met of an odd degree: six.
const ODD_CHAINS: &[&str] = CHAINS.split_at(4).0;

/// None for 0, which is after a refusal.
fn kind_of_number(number: usize) -> Option<&'static str> {
    match number {
        0 => None,
        1..=3 => Some(CHAINS[number - 1]),
        4..=9 => Some(CHAINS[3]),
        _ => Some(CHAINS[4]),
    }
}

pub const COUNT: Entry = Entry {
    name: "count_chains",
    operation: Operation::CountChains,
    usual: || 10_000,
    input: |index, random| {
        let lines = damage::wanted(&table(1, &[SHARING]), index, random);
        let mut asked = with_chains(lines.contains(&SHARING), random);
        damage::spoil(&mut asked, &lines, random);
        asked.into()
    },
    own: Some(own_count),
    kinds: |asked, answer| {
        let chains = kind_of_number(answer.numbers[0]);
        let modulus = chains.and(inputs::kind_of_modulus(asked.m));
        chains.into_iter().chain(modulus).collect()
    },
    wanted: || Wanted {
        order: table(1, &[SHARING]),
        kinds: [&CHAINS[..], &inputs::KINDS].concat(),
        at_2_32: Some(ODD_CHAINS.to_vec()),
        ..Wanted::default()
    },
    ..Entry::USUAL
};

/// "Refusals: as for the chain (the number takes no area)."
pub fn own_count(asked: &Asked) -> Own {
    Own::new(Operation::CountChains, asked, chain::refusals_without_area(asked), || {
        Ok(Answer::numbers(&[own_chains(asked).len()]))
    })
}

/// Of an f that is not refused.
fn own_chains(asked: &Asked) -> Vec<Parts> {
    every_chain(asked.first(), |f, r| pair(f, r, asked.m))
}

/// f that has several chains, most likely, or that has chains of several lengths, or what the chain itself is given;
/// with an n that shares a factor with m or does not.
fn with_chains(sharing: bool, random: &mut Random) -> Asked {
    match random.below(12) {
        0 if !sharing => return near_power::of_several_lengths(random),
        1..=4 => return taken(sharing, random),
        _ => {}
    }
    let shape = Shape::of_several_chains(random);
    let m = modulus_for(shape.degree(), sharing, random);
    let f = nearly_at_times(&shape, m, random);
    let mixed = match random.below(4) {
        0 => {
            let other = same_degree(&shape, random).polynomial(m, random);
            several::mixed(&f, &other, m, random)
        }
        _ => None,
    };
    Asked::one(m, mixed.unwrap_or(f))
}

fn same_degree(shape: &Shape, random: &mut Random) -> Shape {
    match shape {
        Shape::After(shapes) if random.once_in(2) => Shape::Planted(shapes.iter().rev().map(Shape::degree).collect()),
        _ => Shape::Power(shape.degree()),
    }
}

// The j-th, from 0, with its number of parts and price.

/// "18 if j is not below the number."
const PAST_THE_LAST: Refused = Refused::plain(18);

fn order() -> Vec<Refused> {
    [vec![SHORT], table(1, &[SHARING, PAST_THE_LAST])].concat()
}

const J_0: &str = "j = 0";
const LATER_J: &str = "j above 0";
const WIDE_J: &str = "No. 18 for a j of more than 4 bytes";
const PAST_IN_LONG: &str = "No. 18, longer area";

pub const NTH: Entry = Entry {
    name: "nth_chain",
    operation: Operation::NthChain,
    usual: || 12_000,
    input: |index, random| {
        let lines = damage::wanted(&order(), index, random);
        let mut asked = with_chains(lines.contains(&SHARING), random);
        damage::spoil(&mut asked, &lines, random);
        let area = any_area(lines.contains(&SHORT), random);
        let j = match lines.contains(&PAST_THE_LAST) {
            true => far_j(random),
            false => random.pick(&[0, 0, 1, 1, 2, 3, 5]),
        };
        asked.words(area).at(j).into()
    },
    own: Some(own_nth),
    kinds: |asked, answer| match answer.refused {
        Refused::ANSWERED => {
            let which = if asked.number() == 0 { J_0 } else { LATER_J };
            vec![of_parts()[answer.numbers[0] - 1], kind_long(asked), which]
        }
        SHORT => Vec::from_iter(kind_short(asked)),
        PAST_THE_LAST => {
            let wide = (asked.number() > u32::MAX as usize).then_some(WIDE_J);
            wide.into_iter().chain((asked.words.len() > WORDS).then_some(PAST_IN_LONG)).collect()
        }
        _ => Vec::new(),
    },
    wanted: || Wanted {
        order: order(),
        kinds: [of_parts(), &[J_0, LATER_J], &AREAS, &[WIDE_J, PAST_IN_LONG]].concat(),
        at_2_32: Some([&of_odd_parts()[..ODD_PARTS - 1], &[J_0, LATER_J]].concat()),
        ..Wanted::default()
    },
    ..Entry::USUAL
};

/// "As for the chain .., then 18". Where another refusal is due f may have no chains to count; 18 is due beside it if
/// no f of that degree has so many.
pub fn own_nth(asked: &Asked) -> Own {
    let mut due = chain::refusals_due(asked);
    let past = asked.number() >= factorisations(asked.degree()).len();
    due.extend(past.then_some(PAST_THE_LAST));
    Own::new(Operation::NthChain, asked, due, || {
        let chains = own_chains(asked);
        let parts = chains.get(asked.number()).ok_or(PAST_THE_LAST)?;
        Ok(chained(&asked.words, parts, None))
    })
}

/// Past the last chain of every f; some look like 0 or 1 in their low 4 bytes.
fn far_j(random: &mut Random) -> usize {
    static MOST: OnceLock<usize> = OnceLock::new();
    let most = || (2..=LIMIT).map(|n| factorisations(n).len()).max().expect("there are degrees");
    let low = random.between(0, 3);
    random.pick(&[*MOST.get_or_init(most), 1_000, 1 << 32, (1 << 32) + low, 1 << 63, usize::MAX])
}

// All of one f: the number, each of them, and what is past the last.

const NOT_PRIME: &str = "a part whose degree is not prime";
const MANY_PARTS: &str = "several chains of 4 parts or more";
const LENGTHS: &str = "chains of several lengths";
const KNOWN: &str = "chains known beforehand";

pub const EVERY: Entry = Entry {
    name: "every_chain",
    usual: || 8_000,
    input,
    own: Some(|asked| own_every(asked, &own_chains(asked))),
    desk: every_of_desk,
    kinds: |asked, answer| {
        let modulus = inputs::kind_of_modulus(asked.m);
        kinds_of(asked, answer).into_iter().chain(modulus).collect()
    },
    wanted: || Wanted {
        kinds: [&CHAINS[..], of_parts(), &[NOT_PRIME, MANY_PARTS, LENGTHS, KNOWN], &inputs::KINDS].concat(),
        at_2_32: Some([ODD_CHAINS, &[NOT_PRIME, LENGTHS, KNOWN]].concat()),
        ..Wanted::default()
    },
    ..COUNT
};

/// Every fourth input is the next of x^n and the Chebyshev polynomials, and every fourth the next of those near x^n:
/// the degrees of their chains are known.
fn input(index: u64, random: &mut Random) -> Input {
    static POWERS: OnceLock<powers::Walk> = OnceLock::new();
    static NEAR: OnceLock<near_power::Walk> = OnceLock::new();
    let place = index / 4;
    let known = match index % 4 {
        1 => Some(NEAR.get_or_init(near_power::Walk::new).input(place, random)),
        3 => Some(POWERS.get_or_init(powers::Walk::new).input(place, random)),
        _ => None,
    };
    let Some((asked, degrees)) = known else {
        let asked = with_chains(false, random);
        return asked.words(any_area(false, random)).into();
    };
    let asked = asked.words(any_area(false, random));
    let length = asked.words.len();
    let made = move |answer: &Answer| (all_degrees(answer, length) == degrees).then_some(KNOWN);
    Input { asked, made: Some(Box::new(made)) }
}

/// Each j below the number, the first two that are not, and the largest.
fn every_j(number: usize) -> impl Iterator<Item = usize> {
    (0..number + 2).chain([usize::MAX])
}

/// The number, then the answer to each j, where these are all the chains of f, which is not refused.
fn own_every(asked: &Asked, chains: &[Parts]) -> Own {
    let jth = |j: usize| match chains.get(j) {
        Some(parts) => chained(&asked.words, parts, None),
        None => Operation::NthChain.refused(PAST_THE_LAST, asked),
    };
    let number = Answer::numbers(&[chains.len()]);
    let answer = every_j(chains.len()).fold(number, |all, j| all.and(jth(j)));
    Own { answer, due: Vec::new() }
}

fn every_of_desk(_: Operation, asked: &Asked, random: &mut Random) -> Result<Answer, String> {
    let counted = call(Operation::CountChains, asked, random)?;
    let number = counted.numbers[0];
    // A number that cannot be would keep this program asking for ever.
    if number > factorisations(asked.degree()).len() {
        return Err(format!("the desk counts {number} chains"));
    }
    every_j(number).try_fold(counted, |all, j| Ok(all.and(call(Operation::NthChain, &asked.clone().at(j), random)?)))
}

/// The chains in such an answer, where the area has so many words: behind the number stand for each the three numbers
/// of its refusal, its parts and its price.
fn all_chains(answer: &Answer, length: usize) -> Vec<Vec<Polynomial>> {
    let each = answer.numbers[1..].chunks(5).zip(answer.words.chunks(length));
    each.take(answer.numbers[0]).map(|(numbers, area)| parts(numbers[3], area)).collect()
}

fn all_degrees(answer: &Answer, length: usize) -> Vec<FromTheRight> {
    all_chains(answer, length).iter().map(|parts| from_the_right(parts)).collect()
}

/// How many chains, and of how many parts.
fn kinds_of(asked: &Asked, answer: &Answer) -> Vec<&'static str> {
    let degrees = all_degrees(answer, asked.words.len());
    let first = degrees[0].len();
    let splits_once = |&n: &usize| part_degrees(n).next().is_some();
    let kinds = [
        (NOT_PRIME, degrees.iter().flatten().any(splits_once)),
        (MANY_PARTS, degrees.len() > 1 && first > 3),
        (LENGTHS, degrees.iter().any(|list| list.len() != first)),
    ];
    let met = kinds.into_iter().filter(|(_, is)| *is).map(|(kind, _)| kind);
    kind_of_number(degrees.len()).into_iter().chain([of_parts()[first - 1]]).chain(met).collect()
}

// Every f of a tiny size, with the chains found by going through all lists of parts.

/// A size, and which f of it.
#[derive(Clone, Copy)]
enum Block {
    Every(Size),
    Listed(Size),
}

fn tiny_list() -> &'static List<Block> {
    static LIST: OnceLock<List<Block>> = OnceLock::new();
    let every = |&size: &Size| (Block::Every(size), tiny::count(size));
    let listed = |&size: &Size| (Block::Listed(size), tiny::chains::listed(size).len() as u64);
    LIST.get_or_init(|| {
        let all = tiny::chains::EVERY.iter().map(every);
        List::of(all.chain(tiny::chains::COMPOSED.iter().chain(tiny::chains::SEVERAL).map(listed)))
    })
}

pub const TINY: Entry = Entry {
    name: "tiny_chains",
    usual: || tiny_list().length(),
    is_list: true,
    input: |index, random| {
        let (block, number) = tiny_list().at(index);
        let ((m, _), f) = match block {
            Block::Every(size) => (size, tiny::monic(size, number)),
            Block::Listed(size) => (size, Polynomial::of(&tiny::chains::listed(size)[number as usize])),
        };
        Asked::one(Modulus::of_word(m), f).words(any_area(false, random)).into()
    },
    own: Some(|asked| {
        let found = tiny::chains::chains(asked.first(), asked.m);
        assert!(found == own_chains(asked), "the two own ways to all chains differ");
        own_every(asked, &found)
    }),
    kinds: kinds_of,
    wanted: || Wanted { kinds: [&CHAINS[..3], &of_parts()[..3]].concat(), ..Wanted::default() },
    ..EVERY
};
