use crate::desk::{desk_compose, Polynomial, LIMIT, TERMS};
use crate::modulus::{Below, Modulus, Words};
use crate::plain::{accepted, degree, step};
use crate::split::monic;
use crate::timing::{at, beside, Random};
use std::hint::black_box;

/// g(h) by Horner's rule, each step in place, as the desk does it.
fn horner<M: Modulus>(g: &Polynomial, r: usize, h: &Polynomial, s: usize, m: M) -> Polynomial {
    let mut p = [0; TERMS];
    for i in (0..=r).rev() {
        step(&mut p, g[i], h, s, (r - i) * s, m);
    }
    p
}

fn composed(m: u32, g: &Polynomial, h: &Polynomial) -> Option<Polynomial> {
    let (r, s) = (degree(g), degree(h));
    if !accepted(m, g) || !accepted(m, h) || TERMS <= r * s {
        return None;
    }
    Some(match m {
        0 => horner(g, r, h, s, Words),
        _ => horner(g, r, h, s, Below(m as u64)),
    })
}

pub fn sum(f: &Polynomial) -> u64 {
    f.iter().fold(0, |a, &c| a.wrapping_mul(31).wrapping_add(c as u64))
}

fn rows(random: &mut Random, m: u32) {
    for (r, s) in [(2, LIMIT / 2), (9, 14), (LIMIT / 2, 2)] {
        let (g, h) = (monic(random, m, r), monic(random, m, s));
        beside(
            &format!("compose, degrees {r} and {s}{}", at(m)),
            20,
            &mut |_| {
                let mut f = [0; TERMS];
                let refused = unsafe { desk_compose(m, black_box(&g), black_box(&h), &mut f) };
                assert!(refused.number == 0 && refused.polynomial == 0 && refused.power == 0);
                sum(&f)
            },
            &mut |_| sum(&composed(m, black_box(&g), black_box(&h)).unwrap()),
        );
    }
}

pub fn run() {
    let mut random = Random(4);
    rows(&mut random, 2147483647);
    rows(&mut random, 0);
}
