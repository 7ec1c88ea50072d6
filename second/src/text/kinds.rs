//! Kinds of texts that have to be met by the reader: what those that are read have, and what is the matter with the
//! others.

use super::damage::LETTERS;
use super::language::{first_fault, Fault};
use super::{meaning, steps, MISSPELT, MOST_BYTES, MOST_DIGITS, MOST_OPEN};
use crate::asked::Asked;
use crate::desk::LIMIT;
use crate::modulus::Modulus;
use crate::polynomial::Polynomial;
use std::collections::BTreeSet;

// Texts that are read.

const MINUS_FIRST: &str = "begins with a minus";
const MINUS_INSIDE: &str = "a bracket begins with a minus";
const TEN_DIGITS: &str = "number of 10 digits";
const NOT_BELOW_M: &str = "number that is m or more";
const ZEROS: &str = "leading zeros";
const POWER_TEN_DIGITS: &str = "power of 10 digits";
const POWER_0: &str = "power 0";
const HIGHEST_POWER: &str = "power at the limit";
const BRACKET_POWER_0: &str = "bracket to the power 0";
const EIGHT_OPEN: &str = "8 brackets open";
const NEVER_NINE: &str = "9 brackets or more, 8 at once at most";
const LONGEST: &str = "8192 bytes";
const HIGHEST: &str = "highest degree";
const VANISHED: &str = "vanishes above the limit";

#[rustfmt::skip]
pub const READ: [&str; 14] = [
    MINUS_FIRST, MINUS_INSIDE, TEN_DIGITS, ZEROS, POWER_TEN_DIGITS, POWER_0, HIGHEST_POWER, BRACKET_POWER_0,
    EIGHT_OPEN, NEVER_NINE, LONGEST, HIGHEST, NOT_BELOW_M, VANISHED,
];

/// Of a text that is read, and what it means.
pub fn of_read(asked: &Asked, f: &Polynomial) -> Vec<&'static str> {
    let (m, text) = (&asked.m, &asked.bytes);
    let has = |piece: &[u8]| text.windows(piece.len()).any(|bytes| bytes == piece);
    let opened = text.iter().filter(|&&byte| byte == b'(').count();
    let vanished = meaning::built(&steps::of_text(text), *m).vanished;
    let mut kinds = of_numbers(text, *m);
    let mut met = |kind, is: bool| kinds.extend(is.then_some(kind));
    met(MINUS_FIRST, text.starts_with(b"-"));
    met(MINUS_INSIDE, has(b"(-"));
    met(BRACKET_POWER_0, has(b")^0+") || has(b")^0-"));
    met(EIGHT_OPEN, most_at_once(text) == MOST_OPEN);
    met(NEVER_NINE, opened > MOST_OPEN);
    met(LONGEST, text.len() == MOST_BYTES);
    met(HIGHEST, f.degree() == Some(LIMIT));
    met(VANISHED, vanished);
    kinds.into_iter().collect()
}

/// Each once, however often it is met.
fn of_numbers(text: &[u8], m: Modulus) -> BTreeSet<&'static str> {
    let is_other = |byte: &u8| !byte.is_ascii_digit();
    let mut kinds = BTreeSet::new();
    let mut before = 0;
    for digits in text.split(is_other) {
        let is_power = before > 0 && text[before - 1] == b'^';
        before += digits.len() + 1;
        let Some(number) = value(digits) else {
            continue;
        };
        let mut met = |kind, is: bool| kinds.extend(is.then_some(kind));
        met(ZEROS, digits.len() > 1 && digits[0] == b'0');
        met(POWER_TEN_DIGITS, is_power && digits.len() == MOST_DIGITS);
        met(POWER_0, is_power && number == 0);
        met(HIGHEST_POWER, is_power && number == LIMIT as u64);
        met(TEN_DIGITS, !is_power && digits.len() == MOST_DIGITS);
        met(NOT_BELOW_M, !is_power && number >= m.number());
    }
    kinds
}

fn value(digits: &[u8]) -> Option<u64> {
    std::str::from_utf8(digits).ok()?.parse().ok()
}

/// The most brackets that are open at once; those that close none count for nothing.
pub fn most_at_once(text: &[u8]) -> usize {
    let mut open: usize = 0;
    let mut most = 0;
    for byte in text {
        match byte {
            b'(' => open += 1,
            b')' => open = open.saturating_sub(1),
            _ => {}
        }
        most = most.max(open);
    }
    most
}

// Texts that are not.

const NO_BYTES: &str = "no bytes";
const TOO_LONG: &str = "8193 bytes";
const ENDS_EARLY: &str = "ends too early";
const UNCLOSED: &str = "bracket not closed";
const NOT_OPENED: &str = "bracket not opened";
const EMPTY_BRACKET: &str = "empty bracket";
const ELEVEN_DIGITS: &str = "number of 11 digits";
const POWER_ELEVEN_DIGITS: &str = "power of 11 digits";
const POWER_ABOVE: &str = "power above the limit";
const SECOND_POWER: &str = "second power";
const TWO_SIGNS: &str = "two signs";
const PLUS_FIRST: &str = "begins with a plus";
const NO_STAR: &str = "no *";
const OTHER_BYTE: &str = "a byte of no text";
const NINTH_ELSEWHERE: &str = "ninth bracket where none may open";
const THEN_DEEP: &str = "No. 13, then nine brackets";
const THEN_MISSPELT: &str = "No. 14, then a byte of no text";

#[rustfmt::skip]
pub const FAULTS: [&str; 17] = [
    NO_BYTES, TOO_LONG, ENDS_EARLY, UNCLOSED, NOT_OPENED, EMPTY_BRACKET, ELEVEN_DIGITS, POWER_ELEVEN_DIGITS,
    POWER_ABOVE, SECOND_POWER, TWO_SIGNS, PLUS_FIRST, NO_STAR, OTHER_BYTE, NINTH_ELSEWHERE, THEN_DEEP,
    THEN_MISSPELT,
];

const ONE_TOO_MANY: usize = MOST_BYTES + 1;

/// Of any text; nothing if it is in the language.
pub fn of_fault(text: &[u8]) -> Vec<&'static str> {
    let Some(Fault { place, refused }) = first_fault(text) else {
        return Vec::new();
    };
    let behind = &text[place..];
    if refused != MISSPELT {
        let misspelt = behind.iter().any(|byte| !LETTERS.contains(byte));
        return Vec::from_iter(misspelt.then_some(THEN_MISSPELT));
    }
    let deep = most_at_once(behind) > MOST_OPEN && text.len() <= MOST_BYTES;
    let kind = match text.len() {
        0 => Some(NO_BYTES),
        1..=MOST_BYTES => of_place(text, place),
        ONE_TOO_MANY => Some(TOO_LONG),
        _ => None,
    };
    kind.into_iter().chain(deep.then_some(THEN_DEEP)).collect()
}

/// By the byte that is the fault and those before it.
fn of_place(text: &[u8], place: usize) -> Option<&'static str> {
    let before = &text[..place];
    let digits = before.iter().rev().take_while(|byte| byte.is_ascii_digit());
    let digits = digits.count();
    let in_power = digits > 0 && before[..place - digits].ends_with(b"^");
    let open = most_at_once(before) == MOST_OPEN && !before.contains(&b')');
    let last = before.last();
    let Some(byte) = text.get(place) else {
        let whole = matches!(last, Some(b'0'..=b'9' | b'x' | b')'));
        return Some(if whole { UNCLOSED } else { ENDS_EARLY });
    };
    match (last, byte) {
        (_, b'0'..=b'9') if digits == MOST_DIGITS && in_power => Some(POWER_ELEVEN_DIGITS),
        (_, b'0'..=b'9') if digits == MOST_DIGITS => Some(ELEVEN_DIGITS),
        (_, b'0'..=b'9') if in_power => Some(POWER_ABOVE),
        (_, b'(') if open => Some(NINTH_ELSEWHERE),
        (_, b'0'..=b'9' | b'x' | b'(') if last != Some(&b'^') => Some(NO_STAR),
        (_, b'^') if in_power => Some(SECOND_POWER),
        (Some(b'+' | b'-'), b'+' | b'-') => Some(TWO_SIGNS),
        (None | Some(b'('), b'+') => Some(PLUS_FIRST),
        (Some(b'('), b')') => Some(EMPTY_BRACKET),
        (Some(b'0'..=b'9' | b'x' | b')'), b')') => Some(NOT_OPENED),
        (_, byte) => (!LETTERS.contains(byte)).then_some(OTHER_BYTE),
    }
}
