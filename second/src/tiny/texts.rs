//! Short texts by request No. 6's sentence alone, in every way in which they can be cut into a sum of products of
//! factors: each stretch of the text is tried as each of these, cut at each of its places. So it is seen too that
//! "each text has one meaning".

use crate::answer::Answer;
use crate::asked::Asked;
use crate::desk::LIMIT;
use crate::modulus::Modulus;
use crate::operation::Operation;
use crate::polynomial::Polynomial;
use crate::refused::{Refused, FIRST};
use crate::residue::{add, reduced, subtract};
use crate::series::product;
use crate::text::kinds::most_at_once;
use crate::text::{MISSPELT, MOST_DIGITS, MOST_OPEN, TOO_DEEP, TOO_HIGH};

/// The answer to the reader, for a text of few bytes or none.
pub fn read(asked: &Asked) -> Answer {
    let found = polynomial(asked.m, &asked.bytes);
    found.map_or_else(|refused| Operation::ReadText.refused(refused, asked), Answer::one)
}

fn polynomial(m: Modulus, text: &[u8]) -> Result<Polynomial, Refused> {
    if !m.taken() {
        return Err(Refused::plain(1));
    }
    let cuts = Cuts::of(text);
    if let Some(refused) = cuts.first_fault() {
        return Err(refused);
    }
    let value = cuts.sum_value(0, text.len(), m).map_err(|_| TOO_HIGH)?;
    let f = Polynomial::of(&value);
    match f.refusals_due(m, FIRST).first() {
        Some(&refused) => Err(refused),
        None => Ok(f),
    }
}

/// In how many ways the bytes from one place to another are what it says.
type Ways = Vec<Vec<u32>>;

struct Cuts<'a> {
    text: &'a [u8],
    bases: Ways,
    factors: Ways,
    products: Ways,
    sums: Ways,
}

impl Cuts<'_> {
    fn of(text: &[u8]) -> Cuts<'_> {
        let none = || vec![vec![0; text.len() + 1]; text.len() + 1];
        let mut cuts = Cuts { text, bases: none(), factors: none(), products: none(), sums: none() };
        // Shorter stretches first: longer ones are made of them.
        for length in 1..=text.len() {
            for from in 0..=text.len() - length {
                let to = from + length;
                cuts.bases[from][to] = cuts.ways_base(from, to);
                cuts.factors[from][to] = cuts.ways_factor(from, to);
                cuts.products[from][to] = cuts.ways_product(from, to);
                cuts.sums[from][to] = cuts.ways_sum(from, to);
            }
        }
        cuts
    }

    // Whole stretches.

    /// A number, x, or a bracket holding a sum.
    fn ways_base(&self, from: usize, to: usize) -> u32 {
        match &self.text[from..to] {
            b"x" => 1,
            [b'(', _, .., b')'] => self.sums[from + 1][to - 1],
            digits => u32::from(is_number(digits)),
        }
    }

    /// A base, or base^power.
    fn ways_factor(&self, from: usize, to: usize) -> u32 {
        let raised = self.places(from, to, b"^");
        let raised = raised.filter(|&at| is_power(&self.text[at + 1..to]));
        self.bases[from][to] + raised.map(|at| self.bases[from][at]).sum::<u32>()
    }

    /// A factor, or product*factor.
    fn ways_product(&self, from: usize, to: usize) -> u32 {
        let cut = |at: usize| self.products[from][at] * self.factors[at + 1][to];
        self.factors[from][to] + self.places(from, to, b"*").map(cut).sum::<u32>()
    }

    /// A product, -product, sum+product or sum-product.
    fn ways_sum(&self, from: usize, to: usize) -> u32 {
        let cut = |at: usize| self.sums[from][at] * self.products[at + 1][to];
        let negative = match self.text[from] {
            b'-' => self.products[from + 1][to],
            _ => 0,
        };
        let cuts = self.places(from, to, b"+-").map(cut);
        self.products[from][to] + negative + cuts.sum::<u32>()
    }

    /// Where one of these bytes stands.
    fn places<'a>(&'a self, from: usize, to: usize, bytes: &'a [u8]) -> impl Iterator<Item = usize> + 'a {
        (from..to).filter(|&at| bytes.contains(&self.text[at]))
    }

    // Stretches that a longer text would go on from.

    fn first_fault(&self) -> Option<Refused> {
        for to in 1..=self.text.len() {
            if !self.begins(to, MOST_OPEN) {
                let one_bracket_more = self.begins(to, MOST_OPEN + 1);
                return Some(if one_bracket_more { TOO_DEEP } else { MISSPELT });
            }
        }
        match self.sums[0][self.text.len()] {
            0 => Some(MISSPELT),
            1 => None,
            _ => panic!("a text has two meanings"),
        }
    }

    /// Whether the first bytes can begin a text with no more brackets open than that.
    fn begins(&self, to: usize, most_open: usize) -> bool {
        most_at_once(&self.text[..to]) <= most_open && self.begins_sum(0, to)
    }

    fn begins_sum(&self, from: usize, to: usize) -> bool {
        let mut signs = self.places(from, to, b"+-");
        self.begins_product(from, to)
            || self.text[from..to].first() == Some(&b'-') && self.begins_product(from + 1, to)
            || signs.any(|at| self.sums[from][at] > 0 && self.begins_product(at + 1, to))
    }

    fn begins_product(&self, from: usize, to: usize) -> bool {
        let mut stars = self.places(from, to, b"*");
        self.begins_factor(from, to) || stars.any(|at| self.products[from][at] > 0 && self.begins_factor(at + 1, to))
    }

    fn begins_factor(&self, from: usize, to: usize) -> bool {
        let begins_power = |at: usize| at + 1 == to || is_power(&self.text[at + 1..to]);
        self.begins_base(from, to) || self.places(from, to, b"^").any(|at| self.bases[from][at] > 0 && begins_power(at))
    }

    fn begins_base(&self, from: usize, to: usize) -> bool {
        match self.text[from..to].first() {
            None => true,
            Some(b'(') => self.bases[from][to] > 0 || self.begins_sum(from + 1, to),
            Some(_) => self.bases[from][to] > 0,
        }
    }

    // The meaning, by all coefficients up to the highest.

    fn sum_value(&self, from: usize, to: usize, m: Modulus) -> Value {
        if self.products[from][to] > 0 {
            return self.product_value(from, to, m);
        }
        let by_sign = |a: &[u32], sign: u8, b: &[u32]| {
            let with = if sign == b'-' { subtract } else { add };
            let at = |list: &[u32], i: usize| list.get(i).copied().unwrap_or(0);
            let places = 0..a.len().max(b.len());
            within(places.map(|i| with(at(a, i), at(b, i), m)).collect())
        };
        let cut = |&at: &usize| self.sums[from][at] > 0 && self.products[at + 1][to] > 0;
        let (at, before) = match self.places(from, to, b"+-").find(cut) {
            Some(at) => (at, self.sum_value(from, at, m)?),
            None => (from, Vec::new()),
        };
        let last = self.product_value(at + 1, to, m)?;
        by_sign(&before, self.text[at], &last)
    }

    fn product_value(&self, from: usize, to: usize, m: Modulus) -> Value {
        if self.factors[from][to] > 0 {
            return self.factor_value(from, to, m);
        }
        let cut = |&at: &usize| self.products[from][at] > 0 && self.factors[at + 1][to] > 0;
        let at = self.places(from, to, b"*").find(cut);
        let at = at.expect("a product that is no factor is cut somewhere");
        let before = self.product_value(from, at, m)?;
        times(&before, &self.factor_value(at + 1, to, m)?, m)
    }

    fn factor_value(&self, from: usize, to: usize, m: Modulus) -> Value {
        if self.bases[from][to] > 0 {
            return self.base_value(from, to, m);
        }
        let raised = |&at: &usize| self.bases[from][at] > 0;
        let at = self.places(from, to, b"^").find(raised);
        let at = at.expect("a factor that is no base has a power");
        let base = self.base_value(from, at, m)?;
        let one = vec![reduced(1, m)];
        (0..number(&self.text[at + 1..to])).try_fold(one, |raised, _| times(&raised, &base, m))
    }

    fn base_value(&self, from: usize, to: usize, m: Modulus) -> Value {
        match &self.text[from..to] {
            b"x" => Ok(vec![0, reduced(1, m)]),
            [b'(', ..] => self.sum_value(from + 1, to - 1, m),
            digits => Ok(vec![reduced(number(digits), m)]),
        }
    }
}

struct TooHigh;
type Value = Result<Vec<u32>, TooHigh>;

/// Without zeros at the end, where nothing is above the limit.
fn within(mut coefficients: Vec<u32>) -> Value {
    let used = coefficients.iter().rposition(|&c| c != 0);
    coefficients.truncate(used.map_or(0, |n| n + 1));
    match coefficients.len() > LIMIT + 1 {
        true => Err(TooHigh),
        false => Ok(coefficients),
    }
}

fn times(a: &[u32], b: &[u32], m: Modulus) -> Value {
    within(product(a, b, (a.len() + b.len()).saturating_sub(1), m))
}

fn is_number(bytes: &[u8]) -> bool {
    let length = 1..=MOST_DIGITS;
    length.contains(&bytes.len()) && bytes.iter().all(u8::is_ascii_digit)
}

fn is_power(bytes: &[u8]) -> bool {
    is_number(bytes) && number(bytes) <= LIMIT as u128
}

fn number(digits: &[u8]) -> u128 {
    let digits = std::str::from_utf8(digits).expect("digits");
    digits.parse().expect("not many digits")
}
