use crate::desk::{desk_compose, desk_split, Polynomial, Quick, Split, LIMIT, TERMS};
use crate::modulus::modulus;
use crate::plain::{degree, split};
use crate::timing::{at, beside, Random};
use std::hint::black_box;

/// One row: f is split at the left degree r.
pub struct Input {
    pub m: u32,
    pub f: Polynomial,
    pub r: usize,
    /// The right part that f was composed with, if it was.
    pub right: Option<Polynomial>,
}

impl Input {
    pub fn label(&self, operation: &str) -> String {
        match self.right {
            Some(_) => self.label_with(operation, "a pair"),
            None => self.label_with(operation, "no pair"),
        }
    }

    /// Where more is to be said of the answer.
    pub fn label_with(&self, operation: &str, answer: &str) -> String {
        let (n, r, end) = (degree(&self.f), self.r, at(self.m));
        format!("{operation}, degree {n} at r = {r}, {answer}{end}")
    }

    /// A sum over what `split` answers: the desk's or another library's.
    pub fn split(&self, split: Split) -> u64 {
        let (mut g, mut h) = ([0; TERMS], [0; TERMS]);
        let refused = unsafe { split(self.m, black_box(&self.f), self.r, &mut g, &mut h) };
        assert!(refused.polynomial == 0 && refused.power == 0);
        match refused.number {
            0 => sum(&g, &h),
            _ => 0,
        }
    }

    /// The quick answer of the desk, or of another library.
    pub fn quick(&self, quick: Quick) -> [usize; 2] {
        let mut answer = [7; 2];
        let refused = unsafe { quick(self.m, black_box(&self.f), self.r, &mut answer) };
        assert!(refused.number == 0 && refused.polynomial == 0 && refused.power == 0);
        answer
    }
}

pub fn monic(random: &mut Random, m: u32, n: usize) -> Polynomial {
    let mut f = [0; TERMS];
    for c in f.iter_mut().take(n) {
        *c = (random.next() % modulus(m)) as u32;
    }
    f[n] = 1;
    f
}

/// A polynomial that splits at r: the desk composes it.
fn planted(random: &mut Random, m: u32, r: usize, s: usize) -> Input {
    let (g, h) = (monic(random, m, r), monic(random, m, s));
    let mut f = [0; TERMS];
    let refused = unsafe { desk_compose(m, &g, &h, &mut f) };
    assert_eq!(refused.number, 0);
    assert_eq!(degree(&f), r * s);
    let right = Some(h);
    Input { m, f, r, right }
}

fn sum(g: &Polynomial, h: &Polynomial) -> u64 {
    g.iter().zip(h).fold(0, |a, (x, y)| a.wrapping_mul(31).wrapping_add(*x as u64 ^ (*y as u64) << 32))
}

/// Polynomials of degree n for each of the left degrees: one that has no pair, and for each one that has.
fn of_degree(random: &mut Random, m: u32, n: usize, left: &[usize]) -> Vec<Input> {
    let f = monic(random, m, n);
    let right = None;
    let whole = left.iter().map(|&r| Input { m, f, r, right });
    let composed = left.iter().map(|&r| planted(random, m, r, n / r));
    whole.chain(composed).collect()
}

/// All rows.
pub fn inputs() -> Vec<Input> {
    let mut random = Random(2);
    let mut all = Vec::new();
    let fitting = |n: usize| (2..=n / 2).filter(move |r| n % r == 0);
    for n in [60, 120, LIMIT] {
        let left: Vec<usize> = fitting(n).collect();
        all.extend(of_degree(&mut random, 2147483647, n, &left));
    }
    for n in [60, 105, 120, 125, LIMIT] {
        let odd: Vec<usize> = fitting(n).filter(|r| r % 2 == 1).collect();
        all.extend(of_degree(&mut random, 0, n, &odd));
    }
    all
}

pub fn run() {
    for input in inputs() {
        beside(&input.label("split"), 20, &mut |_| input.split(desk_split), &mut |_| match split(
            input.m,
            black_box(&input.f),
            input.r,
        ) {
            Some((g, h)) => sum(&g, &h),
            None => 0,
        });
    }
}
