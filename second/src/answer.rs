//! What an operation answers, the desk's or this program's own: equal in every word or different.

use crate::polynomial::Polynomial;
use crate::record;
use crate::refused::Refused;

#[derive(Clone, Debug, PartialEq, Eq)]
pub struct Answer {
    pub refused: Refused,
    /// Modulus, degree, counts, prices, a change: as `Operation` names them.
    pub numbers: Vec<usize>,
    pub polynomials: Vec<Polynomial>,
    /// The whole of a lent chain area afterwards.
    pub words: Vec<u32>,
    /// The whole of the lent bytes afterwards.
    pub bytes: Vec<u8>,
}

impl Answer {
    pub const NOTHING: Answer = Answer {
        refused: Refused::ANSWERED,
        numbers: Vec::new(),
        polynomials: Vec::new(),
        words: Vec::new(),
        bytes: Vec::new(),
    };

    pub fn numbers(numbers: &[usize]) -> Answer {
        Answer { numbers: numbers.to_vec(), ..Answer::NOTHING }
    }

    pub fn one(polynomial: Polynomial) -> Answer {
        Answer { polynomials: vec![polynomial], ..Answer::NOTHING }
    }

    pub fn two((g, h): (Polynomial, Polynomial)) -> Answer {
        Answer { polynomials: vec![g, h], ..Answer::NOTHING }
    }

    pub fn is_refused(&self) -> bool {
        self.refused != Refused::ANSWERED
    }

    /// With the answer to another request behind it; its refusal stands among the numbers.
    pub fn and(mut self, other: Answer) -> Answer {
        let Refused { number, polynomial, power } = other.refused;
        self.numbers.extend([number, polynomial, power].map(|word| word as usize));
        self.numbers.extend(other.numbers);
        self.polynomials.extend(other.polynomials);
        self.words.extend(other.words);
        self.bytes.extend(other.bytes);
        self
    }

    /// For the eye, line by line.
    fn lines(&self) -> Vec<String> {
        let mut lines = vec![self.refused.to_string(), format!("{:?}", self.numbers)];
        lines.extend(self.polynomials.iter().map(Polynomial::to_string));
        lines.extend(record::show_parts(&self.words).lines().map(str::to_string));
        lines.extend(record::show(&self.bytes).lines().map(str::to_string));
        lines
    }
}

/// An answer and who gave it.
pub struct By<'a>(pub &'a str, pub &'a Answer);

/// Nothing when the two are the same; else both, line under line, with a star where they differ.
pub fn agree(wanted: By, found: By) -> Result<(), String> {
    if wanted.1 == found.1 {
        return Ok(());
    }
    let (a, b) = (wanted.1.lines(), found.1.lines());
    let mut text = String::new();
    for i in 0..a.len().max(b.len()) {
        let line = |lines: &[String]| lines.get(i).cloned().unwrap_or_default();
        let star = if line(&a) == line(&b) { ' ' } else { '*' };
        text += &format!("{star} {:>8}: {}\n{star} {:>8}: {}\n", wanted.0, line(&a), found.0, line(&b));
    }
    Err(text)
}
