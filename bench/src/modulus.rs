//! Arithmetic modulo m in plain Rust, for the two kinds of moduli. A sum is reduced by `%`, as anyone would write it.

/// The number that a modulus word means.
pub fn modulus(word: u32) -> u64 {
    if word == 0 {
        1 << 32
    } else {
        word as u64
    }
}

/// What the two kinds of moduli do each in its own way. All else is written once and compiled for each of them.
pub trait Modulus: Copy {
    /// A sum of products, not reduced yet.
    type Sum: Default;

    fn number(self) -> u64;
    fn add(sum: &mut Self::Sum, a: u32, b: u32);
    fn reduced(self, sum: Self::Sum) -> u32;
    fn residue(self, x: u64) -> u32;
    fn subtract(self, a: u32, b: u32) -> u32;

    fn inner_product(self, a: &[u32], b: &[u32], k: usize, lo: usize, hi: usize) -> u32 {
        let mut w = Self::Sum::default();
        for i in lo..hi {
            Self::add(&mut w, a[i], b[k - i]);
        }
        self.reduced(w)
    }
}

/// A modulus below 2^31: sums are exact, and reduced once at the end.
#[derive(Clone, Copy)]
pub struct Below(pub u64);

/// The modulus 2^32: words run round, and there is nothing to reduce.
#[derive(Clone, Copy)]
pub struct Words;

impl Modulus for Below {
    type Sum = u128;

    fn number(self) -> u64 {
        self.0
    }

    fn add(sum: &mut u128, a: u32, b: u32) {
        *sum += (a as u64 * b as u64) as u128;
    }

    fn reduced(self, sum: u128) -> u32 {
        let (m, high, low) = (self.0, (sum >> 64) as u64, sum as u64);
        if high == 0 {
            return (low % m) as u32;
        }
        let x = ((high << 32) | (low >> 32)) % m;
        (((x << 32) | (low & 0xffff_ffff)) % m) as u32
    }

    fn residue(self, x: u64) -> u32 {
        (x % self.0) as u32
    }

    fn subtract(self, a: u32, b: u32) -> u32 {
        if b <= a {
            a - b
        } else {
            (self.0 - b as u64 + a as u64) as u32
        }
    }
}

impl Modulus for Words {
    type Sum = u32;

    fn number(self) -> u64 {
        1 << 32
    }

    fn add(sum: &mut u32, a: u32, b: u32) {
        *sum = sum.wrapping_add(a.wrapping_mul(b));
    }

    fn reduced(self, sum: u32) -> u32 {
        sum
    }

    fn residue(self, x: u64) -> u32 {
        x as u32
    }

    fn subtract(self, a: u32, b: u32) -> u32 {
        a.wrapping_sub(b)
    }

    /// By slices: with no test inside the loop, words that run round can be added several at once.
    fn inner_product(self, a: &[u32], b: &[u32], k: usize, lo: usize, hi: usize) -> u32 {
        let mut w = 0;
        for (&x, &y) in a[lo..hi].iter().zip(b[k + 1 - hi..=k - lo].iter().rev()) {
            Self::add(&mut w, x, y);
        }
        w
    }
}

pub fn multiply<M: Modulus>(a: u32, b: u32, m: M) -> u32 {
    m.residue(a as u64 * b as u64)
}

/// a^n by squaring.
pub fn power<M: Modulus>(a: u32, n: usize, m: M) -> u32 {
    let (mut result, mut square, mut left) = (m.residue(1), a, n);
    while left != 0 {
        if left % 2 == 1 {
            result = multiply(result, square, m);
        }
        square = multiply(square, square, m);
        left /= 2;
    }
    result
}

pub fn two_products<M: Modulus>(a: u32, x: u32, b: u32, y: u32, m: M) -> u32 {
    let mut w = M::Sum::default();
    M::add(&mut w, a, x);
    M::add(&mut w, b, y);
    m.reduced(w)
}

pub fn strided_product<M: Modulus>(a: &[u32], b: &[u32], lo: usize, hi: usize, at: usize, step: usize, m: M) -> u32 {
    let mut w = M::Sum::default();
    let mut j = at;
    for i in lo..hi {
        M::add(&mut w, a[i], b[j]);
        j += step;
    }
    m.reduced(w)
}

pub fn invert(a: u64, m: u64) -> Option<u32> {
    let (mut x, mut y, mut s, mut t) = (m, a % m, 0u64, 1u64);
    while y != 0 {
        let p = t * (x / y) % m;
        let u = if p <= s { s - p } else { m - p + s };
        (x, y, s, t) = (y, x % y, t, u);
    }
    (x == 1).then_some(s as u32)
}
