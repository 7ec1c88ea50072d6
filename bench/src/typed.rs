//! Typed text in plain Rust, by the desk's method: a reader of sums, products, factors and bases that call each other, and the
//! writer. A refusal of the reader is its number.

use crate::desk::{Polynomial, LIMIT, TERMS, TEXT_BYTES, TEXT_MOST};
use crate::modulus::{power, two_products, Below, Modulus, Words};
use crate::plain::{accepted, degree};

const DIGITS: usize = 10;
const DEPTH: usize = 8;

const MODULUS: u32 = 1;
const DEGREE: u32 = 3;
const LEADING: u32 = 4;
const ABOVE: u32 = 10;
const SPELLING: u32 = 13;
const DEEP: u32 = 14;

/// A polynomial as it is built, with its degree; or, if `over`, something on the way had a coefficient above the limit.
pub struct Built {
    pub over: bool,
    pub degree: usize,
    pub coefficients: Polynomial,
}

impl Built {
    /// c·x^k.
    fn single<M: Modulus>(c: u64, k: usize, m: M) -> Built {
        let mut coefficients = [0; TERMS];
        coefficients[k] = m.residue(c);
        Built { over: false, degree: if coefficients[k] == 0 { 0 } else { k }, coefficients }
    }

    /// Adds k·b, up to the larger degree.
    fn add<M: Modulus>(&mut self, b: &Built, k: u32, m: M) {
        self.over |= b.over;
        if self.over {
            return;
        }
        let top = self.degree.max(b.degree);
        for (x, &y) in self.coefficients[..=top].iter_mut().zip(&b.coefficients) {
            *x = two_products(1, *x, k, y, m);
        }
        self.degree = degree(&self.coefficients[..=top]);
    }

    /// The coefficient of x^k in the product with b.
    fn coefficient<M: Modulus>(&self, b: &Built, k: usize, m: M) -> u32 {
        let (lo, hi) = (k.saturating_sub(self.degree), k.min(b.degree) + 1);
        m.inner_product(&b.coefficients, &self.coefficients, k, lo, hi)
    }

    /// Multiplies by b: first what is above the limit, from the top, then in place, from the top power down.
    fn multiply<M: Modulus>(&mut self, b: &Built, m: M) {
        let last = self.degree + b.degree;
        self.over |= b.over;
        if self.over || (TERMS..=last).rev().any(|k| self.coefficient(b, k, m) != 0) {
            self.over = true;
            return;
        }
        let top = last.min(LIMIT);
        for k in (0..=top).rev() {
            self.coefficients[k] = self.coefficient(b, k, m);
        }
        self.degree = degree(&self.coefficients[..=top]);
    }

    /// Its p-th power: of a single term at once, of anything else a factor at a time until one goes above the limit.
    fn raised<M: Modulus>(self, p: usize, m: M) -> Built {
        let n = self.degree;
        if self.over {
            return self;
        }
        if n * p <= LIMIT && self.coefficients[..n].iter().all(|&c| c == 0) {
            return Built::single(power(self.coefficients[n], p, m) as u64, n * p, m);
        }
        let mut v = Built::single(1, 0, m);
        for _ in 0..p {
            v.multiply(&self, m);
            if v.over {
                break;
            }
        }
        v
    }
}

struct Reader<'a, M> {
    text: &'a [u8],
    at: usize,
    depth: usize,
    m: M,
}

impl<M: Modulus> Reader<'_, M> {
    fn next(&self) -> Option<u8> {
        self.text.get(self.at).copied()
    }

    /// Whether b is next; if so it goes past it.
    fn takes(&mut self, b: u8) -> bool {
        let found = self.next() == Some(b);
        self.at += usize::from(found);
        found
    }

    fn number(&mut self) -> Result<u64, u32> {
        let start = self.at;
        let mut n = 0;
        while let Some(d @ b'0'..=b'9') = self.next() {
            if self.at - start == DIGITS {
                return Err(SPELLING);
            }
            n = 10 * n + (d - b'0') as u64;
            self.at += 1;
        }
        if self.at == start {
            return Err(SPELLING);
        }
        Ok(n)
    }

    fn exponent(&mut self) -> Result<usize, u32> {
        let n = self.number()?;
        if n > LIMIT as u64 {
            return Err(SPELLING);
        }
        Ok(n as usize)
    }

    fn base(&mut self) -> Result<Built, u32> {
        if self.takes(b'(') {
            if self.depth == DEPTH {
                return Err(DEEP);
            }
            self.depth += 1;
            let v = self.sum()?;
            self.depth -= 1;
            return if self.takes(b')') { Ok(v) } else { Err(SPELLING) };
        }
        if self.takes(b'x') {
            return Ok(Built::single(1, 1, self.m));
        }
        Ok(Built::single(self.number()?, 0, self.m))
    }

    fn factor(&mut self) -> Result<Built, u32> {
        let v = self.base()?;
        if self.takes(b'^') {
            let p = self.exponent()?;
            return Ok(v.raised(p, self.m));
        }
        Ok(v)
    }

    fn product(&mut self) -> Result<Built, u32> {
        let mut v = self.factor()?;
        while self.takes(b'*') {
            let w = self.factor()?;
            v.multiply(&w, self.m);
        }
        Ok(v)
    }

    fn sum(&mut self) -> Result<Built, u32> {
        let minus = (self.m.number() - 1) as u32;
        let mut v = if self.takes(b'-') {
            let mut v = Built::single(0, 0, self.m);
            v.add(&self.product()?, minus, self.m);
            v
        } else {
            self.product()?
        };
        loop {
            let k = match self.next() {
                Some(b'+') => 1,
                Some(b'-') => minus,
                _ => return Ok(v),
            };
            self.at += 1;
            v.add(&self.product()?, k, self.m);
        }
    }
}

fn whole<M: Modulus>(text: &[u8], m: M) -> Result<Built, u32> {
    let (at, depth) = (0, 0);
    let mut reader = Reader { text, at, depth, m };
    let v = reader.sum()?;
    if reader.at < text.len() {
        return Err(SPELLING);
    }
    Ok(v)
}

/// What the text builds.
pub fn build(m: u32, text: &[u8]) -> Result<Built, u32> {
    if m == 1 || 2147483647 < m {
        return Err(MODULUS);
    }
    if text.is_empty() || TEXT_BYTES < text.len() {
        return Err(SPELLING);
    }
    match m {
        0 => whole(text, Words),
        _ => whole(text, Below(m as u64)),
    }
}

/// The polynomial that the text means.
pub fn read(m: u32, text: &[u8]) -> Result<Polynomial, u32> {
    let v = build(m, text)?;
    if v.over {
        return Err(ABOVE);
    }
    let (f, n) = (v.coefficients, v.degree);
    match f[n] {
        _ if n < 2 => Err(DEGREE),
        1 => Ok(f),
        _ => Err(LEADING),
    }
}

/// n's decimal digits from `at` on; the place after them.
fn digits(n: u32, out: &mut [u8], at: usize) -> usize {
    let k = if n < 10 { at } else { digits(n / 10, out, at) };
    out[k] = b'0' + (n % 10) as u8;
    k + 1
}

/// f as text, at the start of the area, if f is accepted and it fits; the number of its bytes.
pub fn write(m: u32, f: &Polynomial, area: &mut [u8]) -> Option<usize> {
    if !accepted(m, f) {
        return None;
    }
    let mut text = [0; TEXT_MOST];
    let mut at = 0;
    for i in (0..=degree(f)).rev().filter(|&i| f[i] != 0) {
        if at != 0 {
            text[at] = b'+';
            at += 1;
        }
        at = digits(f[i], &mut text, at);
        text[at..at + 3].copy_from_slice(b"*x^");
        at = digits(i as u32, &mut text, at + 3);
    }
    area.get_mut(..at)?.copy_from_slice(&text[..at]);
    Some(at)
}
