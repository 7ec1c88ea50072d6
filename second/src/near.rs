//! A walk through all degrees r and s of a pair and, for each of them, through all places at which f may be another
//! than g(h).
//!
//! Divided by a monic h again and again, f is d_0 + d_1·h + d_2·h^2 + .., each d of a lower degree than h: its digits
//! to the base h. There is one way only to write it so, and f is some g(h) exactly if every digit is a constant; then
//! the digits are the coefficients of g. One other coefficient of f most likely makes several digits others. So that
//! none can go untested, each digit has to be the only one that is no constant, by each power of x that it can have.

use crate::asked::Asked;
use crate::desk::LIMIT;
use crate::inputs;
use crate::list::List;
use crate::modulus::{Modulus, TOP_WORD};
use crate::polynomial::Polynomial;
use crate::random::Random;
use crate::residue::{add, multiply, shares_factor};
use crate::series::power;

/// Small ones, powers of 2 and other composites, and large primes.
pub const MODULI: [u32; 12] = [2, 3, 4, 6, 8, 101, 65_536, 1_073_741_824, 2_147_483_629, TOP_WORD - 1, TOP_WORD, 0];

/// The moduli that an operation takes at the left degree r.
type Moduli = fn(r: usize) -> Vec<Modulus>;

pub fn moduli(_r: usize) -> Vec<Modulus> {
    MODULI.map(Modulus::of_word).to_vec()
}

/// Those of the moduli modulo which r has an inverse.
pub fn moduli_inverting(r: usize, words: &[u32]) -> Vec<Modulus> {
    let moduli = words.iter().map(|&word| Modulus::of_word(word));
    moduli.filter(|&m| !shares_factor(r as u64, m)).collect()
}

/// What of f is another than in g(h).
#[derive(Clone, Copy)]
pub enum Other {
    Nothing,
    /// The coefficient of x^k, for every k below n.
    Coefficient,
    /// In the digit at h^j the coefficient of x^i, for every k = js + i below n.
    OfDigit,
}

/// An f near g(h), and that h.
pub struct Near {
    pub asked: Asked,
    pub r: usize,
    pub other: Other,
    /// The k of what is another; without meaning where nothing is.
    pub place: usize,
    /// The left part of f for h, or that there is none, where the way in which f was made tells it.
    pub known: Option<Option<Polynomial>>,
}

pub struct Walk {
    stretches: List<Stretch>,
    moduli: Moduli,
}

#[derive(Clone, Copy)]
struct Stretch {
    r: usize,
    s: usize,
    /// Whether h(0) is zero.
    normal: bool,
    other: Other,
}

impl Walk {
    pub fn new(normal: &[bool], moduli: Moduli) -> Walk {
        let mut stretches = Vec::new();
        for (r, s) in every_two_degrees() {
            let moduli = moduli(r).len() as u64;
            let places = (r * s) as u64;
            for &normal in normal {
                let with = |other| Stretch { r, s, normal, other };
                // g(h) at every modulus; the others at every place, with any.
                stretches.push((with(Other::Nothing), moduli));
                stretches.push((with(Other::Coefficient), places));
                stretches.push((with(Other::OfDigit), places));
            }
        }
        Walk { stretches: List::of(stretches.into_iter()), moduli }
    }

    pub fn length(&self) -> u64 {
        self.stretches.length()
    }

    pub fn input(&self, index: u64, random: &mut Random) -> Near {
        let (stretch, number) = self.stretches.at(index);
        let moduli = (self.moduli)(stretch.r);
        let number = number as usize;
        let m = match stretch.other {
            Other::Nothing => moduli[number],
            Other::Coefficient | Other::OfDigit => random.pick(&moduli),
        };
        stretch.near(number, m, random)
    }
}

/// All r and s, both at least 2, with a product within the limit.
pub fn every_two_degrees() -> impl Iterator<Item = (usize, usize)> {
    let with = |r| (2..=LIMIT / r).map(move |s| (r, s));
    (2..=LIMIT / 2).flat_map(with)
}

impl Stretch {
    fn near(self, place: usize, m: Modulus, random: &mut Random) -> Near {
        let Stretch { r, s, other, .. } = self;
        let mut g = inputs::monic(random, r, m);
        let mut h = inputs::monic(random, s, m);
        h.0[0] = match self.normal {
            true => 0,
            false => inputs::not_zero(random, m),
        };
        let more = inputs::not_zero(random, m);
        let mut f = g.compose(&h, m).expect("r times s is within the limit");
        let known = match other {
            Other::Nothing => Some(Some(g)),
            Other::Coefficient => {
                f.0[place] = add(f.0[place], more, m);
                None
            }
            Other::OfDigit => {
                let (j, i) = (place / s, place % s);
                add_to_digit(&mut f, more, (j, i), &h, m);
                g.0[j] = add(g.0[j], more, m);
                Some((i == 0).then_some(g))
            }
        };
        let asked = Asked::two(m, f, h);
        Near { asked, r, other, place, known }
    }
}

/// f + more·x^i·h^j.
fn add_to_digit(f: &mut Polynomial, more: u32, (j, i): (usize, usize), h: &Polynomial, m: Modulus) {
    let s = h.degree().expect("h is taken");
    let raised = power(h.used(), j, j * s + 1, m);
    for (sum, &c) in f.0[i..].iter_mut().zip(&raised) {
        *sum = add(*sum, multiply(more, c, m), m);
    }
}
