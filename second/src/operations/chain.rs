//! Find a complete chain of f, with its number of parts, tries and price: at random, and of everything that is tiny.

use crate::common::*;
use crate::decomposition::{self, pair, price, Pair};
use crate::lent::garbage;
use crate::shape::{self, Shape};
use crate::tiny::{self, Size};

pub const SHARING: Refused = Refused::plain(5);

fn order() -> Vec<Refused> {
    [vec![SHORT], table(1, &[SHARING])].concat()
}

/// Kinds by the number of parts, as many as there can be.
pub fn of_parts() -> &'static [&'static str] {
    const KINDS: [&str; 9] =
        ["1 part", "2 parts", "3 parts", "4 parts", "5 parts", "6 parts", "7 parts", "8 parts", "9 parts"];
    KINDS.split_at(PARTS).0
}

/// At 2^32 all degrees are odd, 3 or more.
pub fn of_odd_parts() -> &'static [&'static str] {
    of_parts().split_at(ODD_PARTS).0
}

pub const ODD_PARTS: usize = LIMIT.ilog(3) as usize;

const PRIME_DEGREE: &str = "prime degree";
const NO_SPLIT: &str = "no split, degree not prime";
const AT_HALF: &str = "first split at half the degree";
const BEGUN_AGAIN: &str = "begun again below the last s";

pub const ENTRY: Entry = Entry {
    name: "chain",
    operation: Operation::Chain,
    usual: || 80_000,
    input: |index, random| input(index, random).into(),
    own: Some(own),
    kinds: |asked, answer| match answer.refused {
        Refused::ANSWERED => kinds_answered(asked, answer),
        SHORT => Vec::from_iter(kind_short(asked)),
        _ => Vec::new(),
    },
    wanted: || Wanted {
        order: order(),
        kinds: [of_parts(), &[PRIME_DEGREE, NO_SPLIT, AT_HALF, BEGUN_AGAIN], &inputs::KINDS, &AREAS].concat(),
        at_2_32: Some([of_odd_parts(), &[PRIME_DEGREE, NO_SPLIT, BEGUN_AGAIN]].concat()),
        ..Wanted::default()
    },
    ..Entry::USUAL
};

pub const FULL_AREA: &str = "area as long as is used";
pub const LONG_AREA: &str = "longer area";
pub const NO_AREA: &str = "no area";
pub const SHORT_AREA: &str = "area a word short";
pub const AREAS: [&str; 4] = [FULL_AREA, LONG_AREA, NO_AREA, SHORT_AREA];

pub fn kind_long(asked: &Asked) -> &'static str {
    if asked.words.len() == WORDS {
        FULL_AREA
    } else {
        LONG_AREA
    }
}

pub fn kind_short(asked: &Asked) -> Option<&'static str> {
    match asked.words.len() {
        0 => Some(NO_AREA),
        n if n + 1 == WORDS => Some(SHORT_AREA),
        _ => None,
    }
}

fn kinds_answered(asked: &Asked, answer: &Answer) -> Vec<&'static str> {
    let (count, tries) = (answer.numbers[0], answer.numbers[1]);
    let degrees: Vec<usize> = parts(count, &answer.words).iter().map(|part| part.degree().unwrap_or(0)).collect();
    let kinds = [
        (PRIME_DEGREE, tries == 0),
        (NO_SPLIT, tries > 0 && count == 1),
        // Here n is even, and s = 2 was tried in vain before n/2.
        (AT_HALF, count == 2 && degrees[0] == 2 && degrees[1] > 2),
        (BEGUN_AGAIN, degrees[1..].windows(2).any(|pair| pair[0] < pair[1])),
    ];
    let of_rounds = kinds.into_iter().filter(|(_, is)| *is).map(|(kind, _)| kind);
    let others = [of_parts()[count - 1], kind_long(asked)].into_iter();
    others.chain(inputs::kind_of_modulus(asked.m)).chain(of_rounds).collect()
}

// The own answer.

pub fn own(asked: &Asked) -> Own {
    own_by(asked, |f, r| pair(f, r, asked.m))
}

/// "The chain tests 11 before everything"; then 1, 2, 3, 4, and 5: "chain: n and m do" share a factor above 1.
pub fn refusals_due(asked: &Asked) -> Vec<Refused> {
    let mut due = Vec::from_iter((asked.words.len() < WORDS).then_some(SHORT));
    due.extend(refusals_without_area(asked));
    due
}

pub fn refusals_without_area(asked: &Asked) -> Vec<Refused> {
    let mut due = asked.refusals_due();
    due.extend(shares_factor(asked.degree() as u64, asked.m).then_some(SHARING));
    due
}

/// The answer, where `pair` gives the normal pair at r if there is one.
fn own_by(asked: &Asked, pair: impl Fn(&Polynomial, usize) -> Option<Pair>) -> Own {
    Own::new(Operation::Chain, asked, refusals_due(asked), || {
        let chain = decomposition::chain(asked.first(), pair);
        Ok(chained(&asked.words, &chain.parts, Some(chain.tries)))
    })
}

/// A chain in an area; the j-th is told without tries.
pub fn chained(area: &[u32], parts: &[Polynomial], tries: Option<usize>) -> Answer {
    let numbers = [parts.len()].into_iter().chain(tries).chain([price(parts)]);
    Answer { numbers: numbers.collect(), words: filled(area, parts), ..Answer::NOTHING }
}

// The inputs.

pub fn input(index: u64, random: &mut Random) -> Asked {
    let lines = damage::wanted(&order(), index, random);
    let mut asked = taken(lines.contains(&SHARING), random);
    damage::spoil(&mut asked, &lines, random);
    asked.words(any_area(lines.contains(&SHORT), random))
}

/// f of any shape, with an n that shares a factor with m or does not.
pub fn taken(sharing: bool, random: &mut Random) -> Asked {
    let shape = Shape::random(random);
    let m = modulus_for(shape.degree(), sharing, random);
    Asked::one(m, nearly_at_times(&shape, m, random))
}

pub fn modulus_for(n: usize, sharing: bool, random: &mut Random) -> Modulus {
    match sharing {
        true => inputs::modulus_sharing(n, random),
        false => inputs::modulus_without(n, random),
    }
}

/// Of each shape some that were spoilt in one coefficient.
pub fn nearly_at_times(shape: &Shape, m: Modulus, random: &mut Random) -> Polynomial {
    let f = shape.polynomial(m, random);
    match random.below(6) {
        0 => shape::nearly(f, m, random),
        _ => f,
    }
}

pub fn area_length(short: bool, random: &mut Random) -> usize {
    let any = random.between(0, WORDS - 2);
    match short {
        true => random.pick(&[0, 1, TERMS, WORDS - TERMS, WORDS - 1, WORDS - 1, any]),
        false => WORDS + random.pick(&[0, 0, 1, 38, any]),
    }
}

/// An area with garbage in it, or with zeros.
pub fn any_area(short: bool, random: &mut Random) -> Vec<u32> {
    let length = area_length(short, random);
    let zeros = random.once_in(8);
    let word = |_| if zeros { 0 } else { garbage(random) };
    (0..length).map(word).collect()
}

// Every monic f of a tiny size, where m and n have no common factor, with every split found by going through all g
// and h.

fn tiny_list() -> &'static List<Size> {
    static LIST: OnceLock<List<Size>> = OnceLock::new();
    let takes = |size: &&Size| !shares_factor(size.1 as u64, Modulus::of_word(size.0));
    let block = |&size: &Size| (size, tiny::count(size));
    LIST.get_or_init(|| List::of(tiny::SPLIT.iter().filter(takes).map(block)))
}

pub const TINY: Entry = Entry {
    name: "tiny_chain",
    usual: || tiny_list().length(),
    is_list: true,
    input: |index, random| {
        let (size, number) = tiny_list().at(index);
        let asked = Asked::one(Modulus::of_word(size.0), tiny::monic(size, number));
        asked.words(any_area(false, random)).into()
    },
    own: Some(|asked| own_by(asked, |f, r| tiny::pair(f, r, asked.m))),
    kinds: |_, answer| vec![of_parts()[answer.numbers[0] - 1]],
    wanted: || Wanted { kinds: of_parts()[..2].to_vec(), ..Wanted::default() },
    ..ENTRY
};
