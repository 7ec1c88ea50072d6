//! The desk's operations: what each answers, in `Answer`'s form, and what it leaves after a refusal.

use crate::answer::Answer;
use crate::asked::Asked;
use crate::desk::{TERMS, WORDS};
use crate::polynomial::Polynomial;
use crate::refused::Refused;

#[rustfmt::skip]
#[derive(Clone, Copy, Debug, PartialEq, Eq)]
pub enum Operation {
    Check, Compose, LeftPart, Split, Quick, ChangePolynomial, ChangePair, Combine, Undo, Chain, CountChains, NthChain,
    Part, WriteSheet, ReadSheet, ReadText, WriteText,
}

use Operation::*;

/// The names in C, without `desk_`.
#[rustfmt::skip]
pub const NAMES: [(&str, Operation); 17] = [
    ("check", Check), ("compose", Compose), ("left_part", LeftPart), ("split", Split), ("quick", Quick),
    ("change_polynomial", ChangePolynomial), ("change_pair", ChangePair), ("combine", Combine), ("undo", Undo),
    ("chain", Chain), ("count_chains", CountChains), ("nth_chain", NthChain), ("part", Part),
    ("write_sheet", WriteSheet), ("read_sheet", ReadSheet), ("read_text", ReadText), ("write_text", WriteText),
];

/// A lent area, sheet or text is too short.
pub const SHORT: Refused = Refused::plain(11);

impl Operation {
    /// Numbers that are answered in whole words: degree; yes and power; parts, tries and price; the number of chains;
    /// parts and price; start and length; length.
    pub fn counts(self) -> usize {
        match self {
            Check | CountChains | WriteText => 1,
            Quick | NthChain | Part => 2,
            Chain => 3,
            _ => 0,
        }
    }

    /// Numbers of 4 bytes, which stand before those: the modulus; a change.
    pub fn small(self) -> usize {
        match self {
            Check | ReadSheet => 1,
            Combine | Undo => 2,
            _ => 0,
        }
    }

    pub fn polynomials(self) -> usize {
        match self {
            Check | Compose | LeftPart | ChangePolynomial | ReadSheet | ReadText => 1,
            Split | ChangePair => 2,
            _ => 0,
        }
    }

    /// Whether it writes the chain area that it is lent, or only reads it.
    pub fn fills_area(self) -> bool {
        matches!(self, Chain | NthChain | ReadSheet)
    }

    /// The same of the bytes.
    pub fn fills_bytes(self) -> bool {
        matches!(self, WriteSheet | WriteText)
    }

    /// "Returned polynomials are all zero after a refusal, counts, prices, degrees and moduli are 0, a returned
    /// change is (1, 0)", and an area is zero as far as it is used; but with 11 nothing is written, and a refused
    /// sheet or text never is.
    pub fn refused(self, refused: Refused, asked: &Asked) -> Answer {
        let numbers = match self {
            Combine | Undo => vec![1, 0],
            _ => vec![0; self.small() + self.counts()],
        };
        let words = match refused {
            _ if !self.fills_area() => Vec::new(),
            SHORT => asked.words.clone(),
            _ => filled(&asked.words, &[]),
        };
        let bytes = if self.fills_bytes() { asked.bytes.clone() } else { Vec::new() };
        Answer { refused, numbers, polynomials: vec![Polynomial::ZERO; self.polynomials()], words, bytes }
    }
}

/// The area with these parts in it: "unused places are zero", and words past those that are used "never change".
pub fn filled(area: &[u32], parts: &[Polynomial]) -> Vec<u32> {
    let mut after = area.to_vec();
    after[..WORDS].fill(0);
    for (place, part) in after.chunks_mut(TERMS).zip(parts) {
        place.copy_from_slice(&part.0);
    }
    after
}

/// The parts of a chain that stand in an area, left to right, as many as the number of them says and the area has
/// room for.
pub fn parts(count: usize, area: &[u32]) -> Vec<Polynomial> {
    area.chunks_exact(TERMS).take(count).map(Polynomial::of).collect()
}
