//! A record: words of 4 bytes, low byte first. Word 0 is m and word 1 + i the coefficient of x^i.

use crate::desk::{BYTES, TERMS};
use crate::modulus::Modulus;
use crate::polynomial::Polynomial;
use std::fmt;

/// What a record says, right or wrong: nothing here is checked.
#[derive(Clone)]
pub struct Record {
    pub modulus: Modulus,
    pub f: Polynomial,
}

fn word_at(bytes: &[u8; BYTES], word: usize) -> u32 {
    // The bytes of a word weigh 1, 256, 65536 and 16777216.
    (0..4).fold(0, |sum, k| sum + (u32::from(bytes[4 * word + k]) << (8 * k)))
}

impl Record {
    pub fn read(bytes: &[u8; BYTES]) -> Record {
        let mut f = Polynomial::ZERO;
        for power in 0..TERMS {
            f.0[power] = word_at(bytes, 1 + power);
        }
        Record { modulus: Modulus::of_word(word_at(bytes, 0)), f }
    }

    /// The record that the bytes begin with, and zeros for those that are missing.
    pub fn read_padded(bytes: &[u8]) -> Record {
        let mut whole = [0; BYTES];
        let count = bytes.len().min(BYTES);
        whole[..count].copy_from_slice(&bytes[..count]);
        Record::read(&whole)
    }

    pub fn bytes(&self) -> Vec<u8> {
        let mut words = vec![self.modulus.word()];
        words.extend(self.f.0);
        let weights = [0, 8, 16, 24];
        let low_first = |word: u32| weights.map(|shift| (word >> shift) as u8);
        words.into_iter().flat_map(low_first).collect()
    }
}

impl fmt::Display for Record {
    fn fmt(&self, out: &mut fmt::Formatter) -> fmt::Result {
        write!(out, "m {}, {}", self.modulus, self.f)
    }
}

/// Bytes for the eye: eight words of four bytes to a line, in the order in which the bytes stand, with the number of
/// the line's first byte, and what of them is text. A line that is the same as the one before it is left out.
pub fn show(bytes: &[u8]) -> String {
    let mut text = format!("{} bytes\n", bytes.len());
    let lines: Vec<&[u8]> = bytes.chunks(32).collect();
    for (line, part) in lines.iter().enumerate().filter(|&(line, part)| line == 0 || lines[line - 1] != *part) {
        let hex = |word: &[u8]| word.iter().map(|byte| format!("{byte:02x}")).collect::<String>();
        let words: Vec<String> = part.chunks(4).map(hex).collect();
        let letter = |&byte: &u8| if byte.is_ascii_graphic() { char::from(byte) } else { '.' };
        text +=
            &format!("  {:>5}: {:<71} {}\n", 32 * line, words.join(" "), part.iter().map(letter).collect::<String>());
    }
    text
}

/// An area for the eye: polynomial under polynomial, without places that are all zero.
pub fn show_parts(area: &[u32]) -> String {
    let parts = area.chunks(TERMS).map(Polynomial::of).enumerate();
    let used = parts.filter(|(_, part)| part.degree().is_some());
    used.map(|(place, part)| format!("  place {place}: {part}\n")).collect()
}
