//! Check a record, which gives its modulus, polynomial and degree.

use crate::common::*;
use crate::inputs::choose;
use crate::record::Record;

/// The record ends too early.
const SHORT: Refused = Refused::plain(9);

fn order() -> Vec<Refused> {
    [vec![SHORT], table(1, &[])].concat()
}

/// "An all-zero record is now No. 3" (the readings of 02).
const ZERO_BYTES: &str = "all bytes zero";
const LARGEST_WORD: &str = "coefficient 4294967295 taken";
const M_1: &str = "m 1";
const M_2_31: &str = "m 2147483648";
const M_LARGEST: &str = "m 4294967295";

pub const ENTRY: Entry = Entry {
    name: "check",
    operation: Operation::Check,
    usual: || 100_000,
    input: |index, random| Asked::none(WHOLE_WORDS).bytes(input(index, random)).into(),
    own: Some(own),
    at_2_32: |asked| Record::read_padded(&asked.bytes).modulus == WHOLE_WORDS,
    kinds: |asked, answer| Vec::from_iter(kind(&asked.bytes, answer)),
    wanted: || Wanted {
        order: order(),
        kinds: vec![ZERO_BYTES, LARGEST_WORD, M_1, M_2_31, M_LARGEST],
        at_2_32: Some(vec![ZERO_BYTES, LARGEST_WORD]),
        ..Wanted::default()
    },
    ..Entry::USUAL
};

fn kind(bytes: &[u8], answer: &Answer) -> Option<&'static str> {
    let word = Record::read_padded(bytes).modulus.word();
    match (answer.refused.number, word) {
        (0, _) if answer.polynomials[0].0.contains(&u32::MAX) => Some(LARGEST_WORD),
        (1, 1) => Some(M_1),
        (1, ABOVE) => Some(M_2_31),
        (1, u32::MAX) => Some(M_LARGEST),
        (3, _) if bytes.iter().all(|&byte| byte == 0) => Some(ZERO_BYTES),
        _ => None,
    }
}

/// 01's order: 9, 1, 2, 3, 4.
///
/// Of a record that ends too early only 9 is due. What follows it here is what a check would say that took the
/// missing bytes for zeros: on these inputs it is seen that 9 comes first.
pub fn own(asked: &Asked) -> Own {
    let Record { modulus, f } = Record::read_padded(&asked.bytes);
    let mut due = Vec::from_iter((asked.bytes.len() < BYTES).then_some(SHORT));
    due.extend(Asked::one(modulus, f.clone()).refusals_due());
    Own::new(Operation::Check, asked, due, || {
        let degree = f.degree().expect("all zero is refused by 3");
        Ok(Answer { numbers: vec![modulus.word() as usize, degree], ..Answer::one(f) })
    })
}

/// At first every second input is the next of the edges, and then of the short records.
pub fn input(index: u64, random: &mut Random) -> Vec<u8> {
    let listed = index / 2;
    if index % 2 == 1 || listed >= EDGES + CUTS {
        scattered(random)
    } else if listed < EDGES {
        edge(listed).bytes()
    } else {
        cut(listed - EDGES, random)
    }
}

// The edges: one record for each combination of the lists below, all other coefficients zero.

/// The least word above the moduli.
const ABOVE: u32 = TOP_WORD + 1;

const EDGE_MODULI: [u32; 7] = [0, 1, 2, 3, TOP_WORD, ABOVE, u32::MAX];
const EDGE_DEGREES: [usize; 4] = [0, 1, 2, LIMIT];
/// The leading coefficient: 0, 1, 2 or m - 1.
const EDGE_LEADINGS: u64 = 4;
/// A further coefficient: m - 1, m, m + 1 or 2^32 - 1.
const EDGE_VALUES: u64 = 4;
/// Where it stands: 0, 1, at the degree, one above it, at the limit.
const EDGE_POWERS: u64 = 5;
/// None, and the further coefficients.
const EDGE_FURTHER: u64 = 1 + EDGE_VALUES * EDGE_POWERS;
const EDGES: u64 = (EDGE_MODULI.len() * EDGE_DEGREES.len()) as u64 * EDGE_LEADINGS * EDGE_FURTHER;

fn edge(mut combination: u64) -> Record {
    let left = &mut combination;
    let m = EDGE_MODULI[choose(left, EDGE_MODULI.len() as u64) as usize];
    let degree = EDGE_DEGREES[choose(left, EDGE_DEGREES.len() as u64) as usize];
    let leading = [0, 1, 2, m.wrapping_sub(1)][choose(left, EDGE_LEADINGS) as usize];
    let mut f = Polynomial::ZERO;
    f.0[degree] = leading;
    // The first choice is "none".
    if let Some(mut further) = left.checked_sub(1) {
        let values = [m.wrapping_sub(1), m, m.wrapping_add(1), u32::MAX];
        let powers = [0, 1, degree, degree + 1, LIMIT];
        let power = powers[choose(&mut further, EDGE_POWERS) as usize];
        f.0[power.min(LIMIT)] = values[choose(&mut further, EDGE_VALUES) as usize];
    }
    Record { modulus: Modulus::of_word(m), f }
}

// The short records: every length below that of a record, each of three kinds.

const CUTS: u64 = 3 * BYTES as u64;

fn cut(number: u64, random: &mut Random) -> Vec<u8> {
    let mut bytes = match number / BYTES as u64 {
        0 => good(random).bytes(),
        1 => random.bytes(BYTES),
        _ => several_damages(random),
    };
    bytes.truncate((number % BYTES as u64) as usize);
    bytes
}

// The rest, at random.

fn scattered(random: &mut Random) -> Vec<u8> {
    match random.below(16) {
        0 => random.bytes(BYTES),
        1 => small_words(random),
        2..=5 => good(random).bytes(),
        6..=9 => one_damage(random),
        10..=12 => several_damages(random),
        13 => one_bit_turned(random),
        14 => shortened(good(random).bytes(), random),
        _ => lengthened(random),
    }
}

/// A record that is taken.
fn good(random: &mut Random) -> Record {
    let modulus = inputs::modulus(random);
    let f = inputs::polynomial(random, modulus);
    Record { modulus, f }
}

/// Words so small that chance alone makes good records and every refusal.
fn small_words(random: &mut Random) -> Vec<u8> {
    let modulus = Modulus::of_word(random.below(6) as u32);
    let mut f = Polynomial::ZERO;
    let places = random.between(0, TERMS);
    let bound = 1 + random.below(5);
    for place in &mut f.0[..places] {
        *place = random.below(bound) as u32;
    }
    Record { modulus, f }.bytes()
}

fn one_bit_turned(random: &mut Random) -> Vec<u8> {
    let mut bytes = good(random).bytes();
    let byte = random.between(0, BYTES - 1);
    bytes[byte] ^= 1 << random.below(8);
    bytes
}

/// More bytes than a record has, good or damaged: what follows is not read. It may look like a further record. Where
/// the damage was a cut, two pieces are joined: then the record runs across the joint, or there are still too few
/// bytes.
fn lengthened(random: &mut Random) -> Vec<u8> {
    let mut bytes = if random.once_in(2) { good(random).bytes() } else { one_damage(random) };
    if random.once_in(2) {
        bytes.extend(good(random).bytes());
    } else {
        let more = random.between(1, BYTES + 88);
        bytes.extend(random.bytes(more));
    }
    bytes
}

fn shortened(mut bytes: Vec<u8>, random: &mut Random) -> Vec<u8> {
    let length = match random.below(3) {
        0 => random.pick(&[0, 1, 3, 4, 5, 8, BYTES - 4, BYTES - 3, BYTES - 2, BYTES - 1]),
        _ => random.between(0, BYTES - 1),
    };
    bytes.truncate(length);
    bytes
}

// Damage, one kind for each line of the table.

fn one_damage(random: &mut Random) -> Vec<u8> {
    let lines = damage::one_of(&order(), random);
    damaged(&lines, random)
}

/// Two or more kinds at once, so that the order of the tests matters.
fn several_damages(random: &mut Random) -> Vec<u8> {
    let lines = damage::several(&order(), random);
    damaged(&lines, random)
}

fn damaged(lines: &[Refused], random: &mut Random) -> Vec<u8> {
    let Record { modulus, f } = good(random);
    let mut asked = Asked::one(modulus, f);
    damage::spoil(&mut asked, lines, random);
    let bytes = Record { modulus: asked.m, f: asked.first().clone() }.bytes();
    match lines.contains(&SHORT) {
        true => shortened(bytes, random),
        false => bytes,
    }
}
