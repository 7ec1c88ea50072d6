//! Kinds of chains, sheets and areas that have to be met by the writer and by the reader of sheets.

use super::inputs::least_too_high;
use super::Places;
use crate::asked::Asked;
use crate::decomposition::{pair, part_degrees};
use crate::desk::{LIMIT, SHEET, WORDS};
use crate::inputs;
use crate::modulus::{Modulus, TOP_WORD};
use crate::operations::chain::{kind_long, kind_short, of_parts, AREAS};
use crate::polynomial::Polynomial;
use crate::residue::shares_factor;

const NO_SHEET: &str = "no sheet";
const SHORT_SHEET: &str = "sheet a byte short";
const FULL_SHEET: &str = "sheet as long as is used";
const LONG_SHEET: &str = "longer sheet";
const BOTH_SHORT: &str = "area and sheet too short";

pub const LENGTHS: [&str; 9] = {
    let [a, b, c, d] = AREAS;
    [a, b, c, d, NO_SHEET, SHORT_SHEET, FULL_SHEET, LONG_SHEET, BOTH_SHORT]
};

/// Which of the two is too short, and how.
pub fn of_too_short(asked: &Asked) -> Option<&'static str> {
    match (asked.words.len(), asked.bytes.len()) {
        (..WORDS, ..SHEET) => Some(BOTH_SHORT),
        (..WORDS, _) => kind_short(asked),
        (_, 0) => Some(NO_SHEET),
        (_, bytes) => (bytes + 1 == SHEET).then_some(SHORT_SHEET),
    }
}

/// Where both are long enough.
pub fn of_lengths(asked: &Asked) -> [&'static str; 2] {
    [kind_long(asked), if asked.bytes.len() == SHEET { FULL_SHEET } else { LONG_SHEET }]
}

pub const NOT_FIRST: [&str; 3] = ["no place used", "first place empty", "gap after the first place"];

/// What is the matter with the used places, where they are not the first ones.
pub fn of_used_places(places: &Places) -> Option<&'static str> {
    match places.used().next() {
        None => Some(NOT_FIRST[0]),
        Some((1.., _)) => Some(NOT_FIRST[1]),
        Some(_) => places.not_the_first().then_some(NOT_FIRST[2]),
    }
}

pub const TOO_HIGH_BY: [&str; 2] = ["least composed degree too high", "composed degree of 3 bytes or more"];

/// By the degree that is too high.
pub fn of_too_high(places: &Places) -> Option<&'static str> {
    match places.composed_degree() {
        65_536.. => Some(TOO_HIGH_BY[1]),
        n => (n == least_too_high()).then_some(TOO_HIGH_BY[0]),
    }
}

const HIGHEST: &str = "highest composed degree";
const NORMAL: &str = "constants 0 but the leftmost";
const NOT_NORMAL: &str = "a constant right of the leftmost";
const SPLITS: &str = "a part that splits further";
pub const MODULI: [&str; 2] = ["m 2", "m 2147483647"];

/// What a chain that is taken can be.
pub fn taken() -> Vec<&'static str> {
    [&taken_at_2_32()[..], &[SPLITS]].concat()
}

/// Few parts split further there.
pub fn taken_at_2_32() -> Vec<&'static str> {
    [of_parts(), &[NORMAL, NOT_NORMAL, HIGHEST]].concat()
}

/// Of a chain that is taken.
pub fn of_chain(places: &Places) -> Vec<&'static str> {
    let (parts, m) = (places.parts(), places.modulus());
    let highest = places.composed_degree() == LIMIT;
    let splits = parts.iter().any(|part| splits(part, m));
    let modulus = match m.word() {
        2 => Some(MODULI[0]),
        TOP_WORD => Some(MODULI[1]),
        _ => inputs::kind_of_modulus(m),
    };
    let others = highest.then_some(HIGHEST).into_iter().chain(splits.then_some(SPLITS)).chain(modulus);
    [of_parts()[parts.len() - 1]].into_iter().chain(of_constants(&parts)).chain(others).collect()
}

fn of_constants(parts: &[Polynomial]) -> Option<&'static str> {
    let others = parts.get(1..).filter(|others| !others.is_empty())?;
    let normal = others.iter().all(|part| part.0[0] == 0);
    Some(if normal { NORMAL } else { NOT_NORMAL })
}

/// By this program's own split; only for low degrees, so that it costs little.
fn splits(part: &Polynomial, m: Modulus) -> bool {
    let n = part.degree().unwrap_or(0);
    let has_inverse = |r: &usize| !shares_factor(*r as u64, m);
    n <= 10 && part_degrees(n).filter(has_inverse).any(|r| pair(part, r, m).is_some())
}
