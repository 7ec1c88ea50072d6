//! Hand out one part of a chain area.

use super::chain::SHORT_AREA;
use crate::common::*;
use crate::lent::garbage;

const HANDED_OUT: &str = "handed out";
const PART_0: &str = "part 0";
const LAST_PART: &str = "last part";
const ONE_WORD: &str = "one word not zero";
const NO_SUCH_PART: &str = "i past the last part";
const WIDE: &str = "i of more than 4 bytes";
const TOO_SHORT: &str = "area too short";
const ALL_ZERO: &str = "all zero";

pub const ENTRY: Entry = Entry {
    name: "part",
    operation: Operation::Part,
    usual: || 80_000,
    input: |_, random| {
        let area = any_area(random);
        let i = match random.below(12) {
            0 => random.pick(&[PARTS, PARTS + 1, LIMIT, TERMS, usize::MAX, usize::MAX / TERMS + 1]),
            // As far as 4 bytes go, it is one of those that there are.
            1 => (1 << 32) + random.between(0, PARTS - 1),
            _ => random.between(0, PARTS - 1),
        };
        Asked::none(WHOLE_WORDS).words(area).at(i).into()
    },
    own: Some(own),
    kinds: |asked, _| match words(asked) {
        Some(words) => kinds_by_words(asked.number(), words),
        None => vec![kind_without(asked)],
    },
    wanted: || Wanted {
        kinds: vec![HANDED_OUT, PART_0, LAST_PART, ONE_WORD, NO_SUCH_PART, WIDE, TOO_SHORT, SHORT_AREA, ALL_ZERO],
        ..Wanted::default()
    },
    ..Entry::USUAL
};

/// Start and length in the caller's area, 0 and 0 for an empty part.
pub fn own(asked: &Asked) -> Own {
    let place = match words(asked) {
        Some(words) if words.iter().any(|&word| word != 0) => [asked.number() * TERMS, TERMS],
        _ => [0, 0],
    };
    Own { answer: Answer::numbers(&place), due: Vec::new() }
}

/// The words of the part; none if there is no such part, or if the area is shorter than is used.
fn words(asked: &Asked) -> Option<&[u32]> {
    if asked.number() >= PARTS || asked.words.len() < WORDS {
        return None;
    }
    asked.words.chunks(TERMS).nth(asked.number())
}

fn kinds_by_words(i: usize, words: &[u32]) -> Vec<&'static str> {
    let which = match i {
        0 => Some(PART_0),
        _ => (i == PARTS - 1).then_some(LAST_PART),
    };
    match words.iter().filter(|&&word| word != 0).count() {
        0 => vec![ALL_ZERO],
        1 => vec![HANDED_OUT, ONE_WORD],
        _ => [HANDED_OUT].into_iter().chain(which).collect(),
    }
}

fn kind_without(asked: &Asked) -> &'static str {
    match asked.number() {
        i if i > u32::MAX as usize => WIDE,
        PARTS.. => NO_SUCH_PART,
        _ if asked.words.len() + 1 == WORDS => SHORT_AREA,
        _ => TOO_SHORT,
    }
}

/// Garbage, a chain with unused places, zeros, or zeros but for a few words. The words past those that are used are
/// garbage as a rule: they are no further part.
fn any_area(random: &mut Random) -> Vec<u32> {
    let any = random.between(0, WORDS - 2);
    let length = match random.below(4) {
        0 => random.pick(&[0, 1, LIMIT, TERMS, WORDS - TERMS, WORDS - 1, WORDS - 1, any]),
        _ => WORDS + random.pick(&[0, 1, 38, TERMS, any]),
    };
    let mut area: Vec<u32> = (0..length).map(|_| garbage(random)).collect();
    let used = length.min(WORDS);
    match random.below(4) {
        0 => {}
        1 => area[..used].fill(0),
        2 => few_words(&mut area[..used], random),
        _ => like_a_chain(&mut area[..used], random),
    }
    area
}

/// The first and the last word of a place are the likeliest ones to be missed.
fn few_words(used: &mut [u32], random: &mut Random) {
    used.fill(0);
    for place in used.chunks_mut(TERMS) {
        let last = place.len() - 1;
        let at = match random.below(4) {
            0 => 0,
            1 => last,
            2 => random.between(0, last),
            _ => continue,
        };
        place[at] = garbage(random);
    }
}

fn like_a_chain(used: &mut [u32], random: &mut Random) {
    used.fill(0);
    let parts = random.between(1, PARTS);
    for place in used.chunks_exact_mut(TERMS).take(parts) {
        let degree = random.between(2, LIMIT / 2);
        place.copy_from_slice(&inputs::monic(random, degree, Modulus::of_word(101)).0);
    }
}
