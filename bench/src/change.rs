use crate::compose::sum;
use crate::desk::{desk_change_polynomial, Polynomial, LIMIT, TERMS};
use crate::modulus::{invert, modulus, multiply, two_products, Below, Modulus, Words};
use crate::plain::{accepted, degree};
use crate::split::monic;
use crate::timing::{at, beside, Random};
use std::hint::black_box;

/// a^(-n)·f(a·x + b) by Horner's rule, in place, with two products a place, as the desk does it.
fn moved<M: Modulus>(f: &Polynomial, n: usize, a: u32, b: u32, m: M) -> Option<Polynomial> {
    let u = invert(a as u64, m.number())?;
    let mut p = [0; TERMS];
    for i in (0..=n).rev() {
        for k in (1..=n - i).rev() {
            p[k] = two_products(b, p[k], a, p[k - 1], m);
        }
        p[0] = two_products(b, p[0], f[i], 1, m);
    }
    let w = (0..n).fold(1, |w, _| multiply(w, u, m));
    for c in p.iter_mut() {
        *c = multiply(w, *c, m);
    }
    Some(p)
}

fn changed(m: u32, f: &Polynomial, a: u32, b: u32) -> Option<Polynomial> {
    let n = degree(f);
    if !accepted(m, f) || (m != 0 && (m <= a || m <= b)) {
        return None;
    }
    match m {
        0 => moved(f, n, a, b, Words),
        _ => moved(f, n, a, b, Below(m as u64)),
    }
}

fn rows(random: &mut Random, m: u32) {
    for n in [30, 60, LIMIT] {
        let f = monic(random, m, n);
        let mut word = || (random.next() % modulus(m)) as u32;
        let (a, b) = (word(), word());
        let a = if m == 0 { a | 1 } else { a }; // at 2^32 no even a has an inverse
        beside(
            &format!("change of a polynomial of degree {n}{}", at(m)),
            20,
            &mut |_| {
                let mut out = [0; TERMS];
                let refused = unsafe { desk_change_polynomial(m, black_box(&f), a, b, &mut out) };
                assert!(refused.number == 0 && refused.polynomial == 0 && refused.power == 0);
                sum(&out)
            },
            &mut |_| sum(&changed(m, black_box(&f), a, b).unwrap()),
        );
    }
}

pub fn run() {
    let mut random = Random(3);
    rows(&mut random, 2147483647);
    rows(&mut random, 0);
}
