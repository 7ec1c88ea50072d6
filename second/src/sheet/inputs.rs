//! Chains for the writer and the reader of sheets: parts that are taken, in the first places or not, and what is
//! wrong with them.

use super::{Places, MISPLACED, TOO_HIGH};
use crate::damage;
use crate::decomposition::part_degrees;
use crate::desk::{BYTES, LIMIT, PARTS, SHEET, WORDS};
use crate::inputs;
use crate::lent::garbage;
use crate::modulus::{Modulus, TOP_WORD};
use crate::operation::SHORT;
use crate::operations::chain::area_length;
use crate::polynomial::Polynomial;
use crate::powers::primes;
use crate::random::Random;
use crate::record::Record;
use crate::refused::{at_place, Refused};
use crate::shape::{chain_degrees, plain_power};

// What is wanted.

/// The lines that input number `index` is to make due, if it is to go by lines. Every second one goes by the whole
/// table; of the others some go by the lines about the whole chain, which are seldom the first to be due otherwise.
pub fn wanted(order: &[Refused], index: u64, random: &mut Random) -> Option<Vec<Refused>> {
    if index.is_multiple_of(2) {
        return Some(damage::wanted(order, index / 2, random));
    }
    match random.below(16) {
        0 | 1 => Some(vec![SHORT]),
        2 | 3 => Some(vec![MISPLACED]),
        4 => Some(vec![TOO_HIGH]),
        5 => Some(vec![MISPLACED, TOO_HIGH]),
        _ => None,
    }
}

/// Those of the lines that name this place, as `damage` knows them: about a polynomial, and No. 1 about none.
pub fn about_place(lines: &[Refused], place: usize, polynomial: u32) -> Vec<Refused> {
    let named = |line: &&Refused| line.polynomial == at_place(place);
    let renamed = |line: &Refused| match line.number {
        1 => Refused::plain(1),
        number => Refused::about(number, polynomial),
    };
    lines.iter().filter(named).map(renamed).collect()
}

// The used places.

type Used = [bool; PARTS];

/// Which places are used: all that the lines name, and then some. They are the first ones, and no fewer than
/// `fewest`.
pub fn first_places(lines: &[Refused], fewest: usize, random: &mut Random) -> Used {
    let last_named = named(lines).iter().rposition(|&named| named);
    let fewest = last_named.map_or(fewest, |place| fewest.max(place + 1));
    let count = random.between(fewest, PARTS);
    std::array::from_fn(|place| place < count)
}

/// The same with a gap, or without a first place, or without any, where the named places leave room for it.
pub fn other_places(lines: &[Refused], random: &mut Random) -> Used {
    let named = named(lines);
    let mut used = named;
    if !named.contains(&true) && random.once_in(3) {
        return used;
    }
    for _ in 0..damage::TRIES {
        used = named.map(|named| named || random.once_in(2));
        let first = used.iter().take_while(|&&used| used).count();
        let all = used.iter().filter(|&&used| used).count();
        if first == 0 || first < all {
            break;
        }
    }
    used
}

fn named(lines: &[Refused]) -> Used {
    let names = |place| lines.iter().any(|line| line.polynomial == at_place(place));
    std::array::from_fn(names)
}

// The parts.

/// The ends of the range of words more often than elsewhere: they are two of the kinds that have to be met.
pub fn modulus(random: &mut Random) -> Modulus {
    match random.below(8) {
        0 => Modulus::of_word(random.pick(&[2, TOP_WORD])),
        _ => inputs::modulus(random),
    }
}

/// A chain that is taken: its parts share one modulus and stand in the first places.
pub fn taken(random: &mut Random) -> Places {
    let used = first_places(&[], 1, random);
    let m = modulus(random);
    parts_at(used, false, m, random)
}

/// Parts that are taken, at these places, with a composed degree within the limit, or above it.
pub fn parts_at(used: Used, too_high: bool, modulus: Modulus, random: &mut Random) -> Places {
    let count = used.iter().filter(|&&used| used).count();
    let degrees = match too_high && count > 1 {
        true => degrees_too_high(count, random),
        false => degrees(count, random),
    };
    let normal = random.once_in(4);
    let mut rest = degrees.into_iter().enumerate();
    Places(used.map(|used| {
        let (index, n) = used.then(|| rest.next())??;
        let mut f = part(n, modulus, random);
        // "All but the leftmost have constant term 0."
        if normal && index > 0 {
            f.0[0] = 0;
        }
        Some(Record { modulus, f })
    }))
}

/// Any part: also a plain power, and such as split further.
pub fn part(n: usize, m: Modulus, random: &mut Random) -> Polynomial {
    let fitting: Vec<usize> = part_degrees(n).collect();
    match random.below(8) {
        0 => plain_power(n),
        1..=3 if !fitting.is_empty() => {
            let r = random.pick(&fitting);
            let g = inputs::monic(random, r, m);
            let h = inputs::monic(random, n / r, m);
            g.compose(&h, m).expect("r times n/r is n")
        }
        _ => inputs::monic(random, n, m),
    }
}

/// At times the product is the limit itself, where its primes are enough for so many parts.
fn degrees(count: usize, random: &mut Random) -> Vec<usize> {
    let primes = primes(LIMIT);
    match random.below(6) {
        0 if (1..=primes.len()).contains(&count) => with_product(&primes, count, random),
        _ => chain_degrees(count, random),
    }
}

/// The least composed degree above the limit: a prime is none, since no part has that degree.
pub fn least_too_high() -> usize {
    (LIMIT + 1..).find(|&n| primes(n).len() > 1).expect("there is always a power of 2")
}

fn degrees_too_high(count: usize, random: &mut Random) -> Vec<usize> {
    let least = primes(least_too_high());
    match random.below(4) {
        0 if count <= least.len() => with_product(&least, count, random),
        0 | 1 => only_just_too_high(count, random),
        // Products that are 0 in 1, 2 or 4 bytes; the last one is in none.
        2 => vec![random.pick(&[16, 64, 64, LIMIT]); count],
        _ => (0..count).map(|_| random.between(12, LIMIT)).collect(),
    }
}

/// Degrees whose product is that of the primes: one prime for each, and the others to any of them.
fn with_product(primes: &[usize], count: usize, random: &mut Random) -> Vec<usize> {
    let mut degrees = primes[..count].to_vec();
    for prime in &primes[count..] {
        degrees[random.between(0, count - 1)] *= prime;
    }
    degrees.rotate_left(random.between(0, count - 1));
    degrees
}

/// One of the degrees is the least that makes the product too high.
fn only_just_too_high(count: usize, random: &mut Random) -> Vec<usize> {
    let mut degrees = chain_degrees(count, random);
    let place = random.between(0, count - 1);
    let others = degrees.iter().product::<usize>() / degrees[place];
    degrees[place] = LIMIT / others + 1;
    degrees
}

// Lengths.

/// How many words the area has and how many bytes the sheet; one of them is too short, or both, or neither.
pub struct Lengths {
    pub area: usize,
    pub sheet: usize,
}

impl Lengths {
    pub fn random(short: bool, random: &mut Random) -> Lengths {
        if short && random.below(3) > 0 {
            return Lengths::at_the_edge(random);
        }
        let which = random.between(0, 2);
        Lengths { area: area_length(short && which > 0, random), sheet: sheet_length(short && which < 2, random) }
    }

    /// One of the two is missing, or misses its last item, and only that one.
    fn at_the_edge(random: &mut Random) -> Lengths {
        let area = random.pick(&[0, WORDS - 1]);
        let sheet = random.pick(&[0, SHEET - 1]);
        match random.once_in(2) {
            true => Lengths { area, sheet: sheet_length(false, random) },
            false => Lengths { area: area_length(false, random), sheet },
        }
    }
}

fn sheet_length(short: bool, random: &mut Random) -> usize {
    let any = random.between(0, SHEET - 2);
    match short {
        true => random.pick(&[1, BYTES - 1, BYTES, SHEET - BYTES, any]),
        false => SHEET + random.pick(&[0, 0, 1, 28, any]),
    }
}

/// As many bytes that are no likely answer: none of them is zero, which is what places that are not used have to be.
pub fn garbage_bytes(count: usize, random: &mut Random) -> Vec<u8> {
    let bytes = random.bytes(count);
    bytes.into_iter().map(|byte| byte | 1).collect()
}

pub fn garbage_words(count: usize, random: &mut Random) -> Vec<u32> {
    (0..count).map(|_| garbage(random)).collect()
}
