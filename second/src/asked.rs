//! What is asked of an operation, right or wrong. Nothing here is checked but by `refusals_due`.

use crate::change::Change;
use crate::modulus::{Modulus, WHOLE_WORDS};
use crate::polynomial::Polynomial;
use crate::record;
use crate::refused::{Refused, FIRST};
use std::fmt;

#[derive(Clone)]
pub struct Asked {
    pub m: Modulus,
    /// f; g and h; or f and h.
    pub polynomials: Vec<Polynomial>,
    /// r, j, i, or the numbers of a change or of two.
    pub numbers: Vec<usize>,
    /// A chain area, as the caller lends it.
    pub words: Vec<u32>,
    /// A record, a sheet or a text, or an area for one, as the caller lends it.
    pub bytes: Vec<u8>,
}

impl Asked {
    /// A modulus alone.
    pub fn none(m: Modulus) -> Asked {
        Asked { m, polynomials: Vec::new(), numbers: Vec::new(), words: Vec::new(), bytes: Vec::new() }
    }

    pub fn one(m: Modulus, first: Polynomial) -> Asked {
        Asked { polynomials: vec![first], ..Asked::none(m) }
    }

    pub fn two(m: Modulus, first: Polynomial, second: Polynomial) -> Asked {
        Asked { polynomials: vec![first, second], ..Asked::none(m) }
    }

    pub fn at(self, number: usize) -> Asked {
        Asked { numbers: vec![number], ..self }
    }

    pub fn by(mut self, [a, b]: Change) -> Asked {
        self.numbers.extend([a as usize, b as usize]);
        self
    }

    pub fn words(self, words: Vec<u32>) -> Asked {
        Asked { words, ..self }
    }

    pub fn bytes(self, bytes: impl Into<Vec<u8>>) -> Asked {
        Asked { bytes: bytes.into(), ..self }
    }

    pub fn at_2_32(&self) -> bool {
        self.m == WHOLE_WORDS
    }

    pub fn first(&self) -> &Polynomial {
        &self.polynomials[0]
    }

    pub fn second(&self) -> &Polynomial {
        &self.polynomials[1]
    }

    /// r, j or i.
    pub fn number(&self) -> usize {
        self.numbers[0]
    }

    /// The first change or, by 1, the second.
    pub fn change(&self, which: usize) -> Change {
        [self.numbers[2 * which] as u32, self.numbers[2 * which + 1] as u32]
    }

    /// The degree that the coefficients of the first show, right or wrong; 0 for all zero.
    pub fn degree(&self) -> usize {
        self.degrees()[0]
    }

    pub fn degrees(&self) -> Vec<usize> {
        let degree = |f: &Polynomial| f.degree().unwrap_or(0);
        self.polynomials.iter().map(degree).collect()
    }

    /// Each line of the table among 1 to 4 that is true: "1 is tested once, then 2, 3, 4 for the first (g, or f),
    /// then for the second (h)".
    pub fn refusals_due(&self) -> Vec<Refused> {
        let mut due = Vec::new();
        if !self.m.taken() {
            due.push(Refused::plain(1));
        }
        for (which, polynomial) in (FIRST..).zip(&self.polynomials) {
            due.extend(polynomial.refusals_due(self.m, which));
        }
        due
    }
}

impl fmt::Display for Asked {
    fn fmt(&self, out: &mut fmt::Formatter) -> fmt::Result {
        writeln!(out, "m {}, numbers {:?}", self.m, self.numbers)?;
        for (name, polynomial) in ["first", "second"].iter().zip(&self.polynomials) {
            writeln!(out, "  {name}: {polynomial}")?;
        }
        if !self.words.is_empty() {
            writeln!(out, "  area: {} words\n{}", self.words.len(), record::show_parts(&self.words))?;
        }
        if !self.bytes.is_empty() {
            writeln!(out, "  {}", record::show(&self.bytes))?;
        }
        Ok(())
    }
}
