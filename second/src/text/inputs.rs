//! Texts in the language: sums of all forms, and such as mean a polynomial that is taken.

use super::{MOST_DIGITS, MOST_OPEN};
use crate::desk::LIMIT;
use crate::inputs;
use crate::modulus::Modulus;
use crate::random::Random;

/// What a piece of text may hold.
#[derive(Clone, Copy)]
pub struct Room {
    pub m: Modulus,
    /// No sum, product or power of it is higher, but in a bracket to the power 0.
    pub high: usize,
    /// No more brackets, one in another.
    pub open: usize,
}

impl Room {
    pub fn whole(m: Modulus) -> Room {
        Room { m, high: LIMIT, open: MOST_OPEN }
    }

    pub fn up_to(self, high: usize) -> Room {
        Room { high, ..self }
    }

    fn inside(self) -> Room {
        Room { open: self.open - 1, ..self }
    }
}

/// A sum and one more behind it. A minus that the second begins with is the sign between them then.
pub fn added(first: &str, second: &str) -> String {
    match second.starts_with('-') {
        true => format!("{first}{second}"),
        false => format!("{first}+{second}"),
    }
}

/// In so many brackets.
pub fn nested(brackets: usize, text: &str) -> String {
    format!("{}{text}{}", "(".repeat(brackets), ")".repeat(brackets))
}

// Numbers and powers.

/// With leading zeros at times.
fn spelt(number: u64, random: &mut Random) -> String {
    let digits = number.to_string().len();
    let width = match random.below(12) {
        0 => MOST_DIGITS,
        1 => random.between(digits, MOST_DIGITS),
        _ => digits,
    };
    format!("{number:0width$}")
}

pub fn number(m: Modulus, random: &mut Random) -> String {
    let of_ten_digits = 10_u64.pow(MOST_DIGITS as u32);
    let number = match random.below(8) {
        0 => random.pick(&[0, 1]),
        1 => random.pick(&[m.number() - 1, m.number(), m.number() + 1]),
        2 => random.pick(&[(1 << 31) - 1, 1 << 31, (1 << 32) - 1, 1 << 32]),
        3 => random.pick(&[of_ten_digits / 10, of_ten_digits - 1]),
        4 => random.below(of_ten_digits),
        _ => random.below(20),
    };
    spelt(number, random)
}

/// ^p; at times nothing for 1.
pub fn raised(power: usize, random: &mut Random) -> String {
    match power {
        1 if random.once_in(2) => String::new(),
        _ => format!("^{}", spelt(power as u64, random)),
    }
}

// Sums.

/// Any sum.
pub fn sum(room: Room, random: &mut Random) -> String {
    let mut text = String::from(random.pick(&["", "", "", "-"]));
    text += &product(room, random);
    for _ in 0..random.pick(&[0, 0, 1, 1, 2, 3]) {
        text += random.pick(&["+", "-"]);
        text += &product(room, random);
    }
    text
}

fn product(room: Room, random: &mut Random) -> String {
    let mut left = room.high;
    let mut factors = Vec::new();
    for _ in 0..random.pick(&[1, 1, 1, 2, 2, 3]) {
        let high = match random.below(3) {
            0 => left,
            _ => random.between(0, left),
        };
        left -= high;
        factors.push(factor(room.up_to(high), random));
    }
    factors.join("*")
}

fn factor(room: Room, random: &mut Random) -> String {
    match random.below(5) {
        0 if room.open > 0 => bracket(room, random),
        1 | 2 => {
            let base = number(room.m, random);
            let any = random.between(0, LIMIT);
            let power = random.pick(&[1, 1, 1, 1, 1, 1, 1, 1, 0, 2, 3, any]);
            base + &raised(power, random)
        }
        _ => {
            let any = random.between(0, room.high);
            let power = random.pick(&[0, 1, any, any, room.high]);
            format!("x{}", raised(power.min(room.high), random))
        }
    }
}

/// What has the power 0 may be as high as anything.
fn bracket(room: Room, random: &mut Random) -> String {
    let any = random.between(1, room.high.max(1));
    let power = random.pick(&[0, 1, 1, 1, 2, 3, any]);
    let high = room.high.checked_div(power).unwrap_or(LIMIT);
    let inside = sum(room.inside().up_to(high), random);
    nested(1, &inside) + &raised(power, random)
}

// Sums that begin with x^n, whatever is added.

/// Of degree n, 1 or more, and monic.
pub fn monic(n: usize, room: Room, random: &mut Random) -> String {
    let room = room.up_to(n);
    let high = match random.below(8) {
        0 => twice_and_once_less(n, room, random),
        _ => monic_product(n, room, random),
    };
    let lower = |random: &mut Random| sum(room.up_to(n - 1), random);
    match random.below(6) {
        0 => high,
        1 | 2 => added(&lower(random), &high),
        3 => added(&added(&lower(random), &high), &lower(random)),
        _ => added(&high, &lower(random)),
    }
}

/// 2*x^n-x^n, or 3*x^n-2*x^n and so on.
fn twice_and_once_less(n: usize, room: Room, random: &mut Random) -> String {
    let times = 2 + random.below(1_000_000_000);
    let first = monic_product(n, room, random);
    let second = monic_product(n, room, random);
    format!("{times}*{first}-{}*{second}", times - 1)
}

fn monic_product(n: usize, room: Room, random: &mut Random) -> String {
    match random.below(8) {
        0 if n > 1 => {
            let first = random.between(1, n - 1);
            let one = monic_product(first, room, random);
            let other = monic_product(n - first, room, random);
            format!("{one}*{other}")
        }
        1..4 if room.open > 0 => {
            let divides = |power: &usize| n.is_multiple_of(*power);
            let powers: Vec<usize> = (1..=n).filter(divides).collect();
            let power = random.pick(&powers);
            let base = monic(n / power, room.inside(), random);
            nested(1, &base) + &raised(power, random)
        }
        _ => format!("x{}", raised(n, random)),
    }
}

// Whole texts.

/// Of a polynomial that is taken; all brackets are used at times.
pub fn taken(m: Modulus, random: &mut Random) -> String {
    let n = match random.below(16) {
        0 => LIMIT,
        1..4 => inputs::degree(random),
        _ => random.between(2, 12),
    };
    let brackets = random.pick(&[0, 0, 0, 1, MOST_OPEN - 1, MOST_OPEN]);
    let room = Room { open: MOST_OPEN - brackets, ..Room::whole(m) };
    nested(brackets, &monic(n, room, random))
}
