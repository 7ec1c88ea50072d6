use crate::desk::{LIMIT, TERMS};
use crate::modulus::{invert as plain_invert, power as plain_power, Below, Modulus, Words};
use crate::timing::{beside, Random};

const MOST: u64 = 1 << 32;

extern "C" {
    fn measure_product(a: *const u32, la: usize, b: *const u32, lb: usize, m: u64, out: *mut u32, lout: usize);
    fn measure_power(a: u32, n: usize, m: u64) -> u32;
    fn measure_invert(a: u64, m: u64) -> u64;
}

// The plain functions test their arguments as the exported ones do and are not inlined: a call costs the same on both sides.

#[inline(never)]
fn product<M: Modulus>(a: &[u32], b: &[u32], m: M, out: &mut [u32]) {
    if m.number() == 0 || MOST < m.number() || a.len() < out.len() || b.len() < out.len() || 0x7fff_ffff <= out.len() {
        return;
    }
    for k in 0..out.len() {
        out[k] = m.inner_product(a, b, k, 0, k + 1);
    }
}

#[inline(never)]
fn power<M: Modulus>(a: u32, n: usize, m: M) -> u32 {
    if m.number() == 0 || MOST < m.number() {
        return 0;
    }
    plain_power(a, n, m)
}

#[inline(never)]
fn invert(a: u64, m: u64) -> u64 {
    if !(2..=MOST).contains(&m) {
        return 0;
    }
    plain_invert(a, m).unwrap_or(0) as u64
}

fn rows<M: Modulus>(modulus: M, random: &mut Random) {
    let m = modulus.number();
    let a: Vec<u32> = (0..512).map(|_| (random.next() % m) as u32).collect();
    let b: Vec<u32> = (0..512).map(|_| (random.next() % m) as u32).collect();
    for terms in [8, 64, TERMS] {
        let (mut ours, mut plain) = (vec![0; terms], vec![0; terms]);
        beside(
            &format!("the {terms} coefficients of a product, m = {m}"),
            100,
            &mut |i| unsafe {
                measure_product(a[i..].as_ptr(), a.len() - i, b.as_ptr(), b.len(), m, ours.as_mut_ptr(), terms);
                ours[terms - 1] as u64
            },
            &mut |i| {
                product(&a[i..], &b, modulus, &mut plain);
                plain[terms - 1] as u64
            },
        );
    }
    let numbers: Vec<u64> = (0..1000).map(|_| random.next() % m).collect();
    beside(
        &format!("power {LIMIT}, m = {m}"),
        1000,
        &mut |i| unsafe { measure_power(numbers[i] as u32, LIMIT, m) as u64 },
        &mut |i| power(numbers[i] as u32, LIMIT, modulus) as u64,
    );
    beside(&format!("inverse, m = {m}"), 1000, &mut |i| unsafe { measure_invert(numbers[i], m) }, &mut |i| {
        invert(numbers[i], m)
    });
}

pub fn run() {
    let mut random = Random(1);
    rows(Below(101), &mut random);
    rows(Below(2147483647), &mut random);
    rows(Words, &mut random);
}
