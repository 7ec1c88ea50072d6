//! The quick answer, yes or no at one r with the highest power that differs, beside plain Rust by the same method.

use crate::desk::desk_quick;
use crate::modulus::modulus;
use crate::plain::{degree, quick};
use crate::split::{inputs, Input};
use crate::timing::beside;
use std::hint::black_box;

/// One number for both of an answer.
pub fn sum([yes, power]: [usize; 2]) -> u64 {
    (yes << 32 | power) as u64
}

/// The same with the coefficient of x^p larger by 1.
fn larger(input: &Input, p: usize) -> Input {
    let Input { m, mut f, r, .. } = *input;
    f[p] = ((f[p] as u64 + 1) % modulus(m)) as u32;
    let right = None;
    Input { m, f, r, right }
}

/// The answers with each coefficient below the leading one made larger by 1. Where there was a pair, that is a no at most powers,
/// early and late; at x^0 it is a yes, since the constant of g takes it.
fn compare(input: &Input) {
    for p in 0..degree(&input.f) {
        let other = larger(input, p);
        let answer = other.quick(desk_quick);
        let label = input.label("quick");
        let plain = quick(other.m, &other.f, other.r);
        assert_eq!(Some(answer), plain, "{label}, at x^{p}");
    }
}

fn row(label: &str, input: &Input) {
    beside(label, 20, &mut |_| sum(input.quick(desk_quick)), &mut |_| {
        sum(quick(input.m, black_box(&input.f), input.r).unwrap())
    });
}

/// Where there is no pair, the root tells it, early; a no at x^1 comes as late as can be, and takes the time of a yes.
pub fn run() {
    for input in inputs() {
        compare(&input);
        let yes = usize::from(input.right.is_some());
        assert!(input.quick(desk_quick)[0] == yes);
        row(&input.label("quick"), &input);
        if yes == 1 {
            let late = larger(&input, 1);
            assert!(late.quick(desk_quick) == [0, 1]);
            row(&late.label_with("quick", "a late no"), &late);
        }
    }
}
