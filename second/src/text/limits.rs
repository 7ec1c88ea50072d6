//! Texts on both sides of each limit: of digits, of powers, of brackets, of the length, and texts that end too early.

use super::inputs::{added, monic, nested, number, Room};
use super::{MOST_BYTES, MOST_DIGITS, MOST_OPEN};
use crate::desk::LIMIT;
use crate::modulus::Modulus;
use crate::random::Random;

pub fn at_a_limit(m: Modulus, random: &mut Random) -> String {
    let piece = match random.below(24) {
        0 => return String::new(),
        1..5 => digits(random),
        5..9 => power(m, random),
        9..13 => brackets(m, random),
        13..17 => ninth_bracket(m, random),
        _ => misspelt(m, random),
    };
    framed(&piece, random)
}

/// As one factor of a text; the frame opens a bracket at times.
fn framed(piece: &str, random: &mut Random) -> String {
    let (before, behind) = random.pick(&[
        ("", ""),
        ("x^2+", ""),
        ("x^3-2*", ""),
        ("(x^2+", ")"),
        ("", "*x^0+x^2"),
        ("-", "+x^4"),
        ("x^9+(", ")^0"),
    ]);
    format!("{before}{piece}{behind}")
}

/// A number of 9, 10, 11 digits or more.
fn digits(random: &mut Random) -> String {
    let most = MOST_DIGITS;
    let width = random.pick(&[most - 1, most, most, most + 1, most + 1, most + 2, 20, 21]);
    let leading_zeros = random.pick(&[0, 0, width - 1, width]);
    let digit = |at: usize| match at < leading_zeros {
        true => '0',
        false => char::from(b'1' + random.below(9) as u8),
    };
    String::from_iter((0..width).map(digit))
}

/// Powers about the limit in so many digits, and those that look small when only some of their bits are looked at.
fn power(m: Modulus, random: &mut Random) -> String {
    let near = random.between(LIMIT - 2, LIMIT + 4) as u64;
    let any = random.below(2_000);
    let looks_small = random.pick(&[LIMIT as u64 + 2, 256, 258, 65_538, 1 << 31, 1 << 32, (1 << 32) + 2]);
    let power = random.pick(&[0, near, near, near, any, looks_small]);
    let width = random.pick(&[1, 1, 4, MOST_DIGITS, MOST_DIGITS, MOST_DIGITS + 1]);
    let base = match random.below(4) {
        0 => number(m, random),
        1 => nested(1, &number(m, random)),
        _ => "x".to_string(),
    };
    format!("{base}^{power:0width$}")
}

/// 7, 8, 9 or more, one in another; or many, one behind the other.
fn brackets(m: Modulus, random: &mut Random) -> String {
    let most = MOST_OPEN;
    let depth = random.pick(&[most - 1, most, most, most + 1, most + 1, most + 2, 256, 257]);
    let inside = random.pick(&["x", "-1", "x^2-x", "0"]);
    match random.below(5) {
        0 => nested(most - 1, "x*(x)-(1)+(x)*(-x)^2"),
        1 => vec![nested(most, inside); random.between(2, 9)].join("*"),
        2 => vec![format!("({})", number(m, random)); random.between(9, 20)].join("-"),
        3 => {
            // Each opens after something.
            let between = random.pick(&["-", "x*", "x+", "2*x-", "(x)*"]);
            let opened = format!("({between}").repeat(depth);
            format!("{opened}{inside}{}", ")".repeat(depth)).replace("--", "-")
        }
        _ => nested(depth, inside),
    }
}

/// A ninth bracket where one may open, and where none may; something is wrong before it or behind it at times.
fn ninth_bracket(m: Modulus, random: &mut Random) -> String {
    let too_high = format!("x^{}", LIMIT + 1);
    let wrong = random.pick(&["", "", "", "x", "^", ")", " ", "=", &too_high]);
    let before = random.pick(&["", "-", "x*", "x+", "x", "2", "x^", "x^2", "(x)", "+", "-x-"]);
    let behind = number(m, random);
    let opened = "(".repeat(MOST_OPEN);
    let closed = ")".repeat(MOST_OPEN + 1);
    match random.once_in(2) {
        true => format!("{opened}{before}({behind}{wrong}{closed}"),
        false => format!("{opened}{wrong}{before}({behind}{closed}"),
    }
}

/// Brackets that are not closed or never opened, what the readings leave out of the language, and texts that end
/// where something has to follow.
fn misspelt(m: Modulus, random: &mut Random) -> String {
    let open = random.between(1, MOST_OPEN);
    let closed = random.between(0, MOST_OPEN + 1);
    let piece = number(m, random);
    let end = random.pick(&["+", "-", "*", "^", "(", "-)", "x+)", "x*)", "x^)", ""]);
    let wrong = random.pick(&["()", "()", "+x", "(+x)", "--x", "x+-x", "x^2^2", "(x)^2^3", "2x", "x(x)", "X", " x"]);
    match random.below(4) {
        0 => format!("{}{piece}{}", "(".repeat(open), ")".repeat(closed)),
        1 => format!("x^2+{piece}{end}"),
        _ => wrong.to_string(),
    }
}

// Lengths.

/// The longest text, one byte less or more, or any number of bytes about it.
pub fn long(m: Modulus, random: &mut Random) -> String {
    let most = MOST_BYTES;
    let about = random.between(most / 2, 2 * most);
    let length = random.pick(&[most, most, most, most, most - 1, most + 1, most + 1, about]);
    match random.below(12) {
        0 => "(".repeat(length),
        1 => "x".repeat(length),
        2 => "1".repeat(length),
        3 => long_product(length),
        _ => {
            let room = Room { open: 3, ..Room::whole(m) };
            let n = random.between(2, 12);
            padded(monic(n, room, random), length, random)
        }
    }
}

/// x^2 times 1, again and again.
fn long_product(length: usize) -> String {
    let first = if length.is_multiple_of(2) { "x^02" } else { "x^2" };
    let times = (length - first.len()) / 2;
    format!("{first}{}", "*1".repeat(times))
}

/// Pieces that change nothing, up to that length, if there is room for them.
fn padded(mut text: String, length: usize, random: &mut Random) -> String {
    let pieces = ["+0", "-0*x", "-0^2", "*1", "*(1)^1", "-(0*x)", "+((0))"];
    while text.len() + 30 < length {
        text += random.pick(&pieces);
    }
    while text.len() + 2 <= length {
        // No single byte may be left.
        let left = length - text.len();
        let digits = match left - 1 {
            digits @ ..=MOST_DIGITS => digits,
            _ => MOST_DIGITS / 2,
        };
        text = added(&text, &"0".repeat(digits));
    }
    text
}
