//! What a modulus word means. It is asked nowhere else: the others are handed a `Modulus`, which has no arithmetic of
//! its own to be mistaken for the word's.

use std::fmt;

/// A modulus word as a caller or a record gives it, right or wrong.
#[derive(Clone, Copy, Debug, PartialEq, Eq)]
pub struct Modulus(u32);

/// "A modulus word of 0 shall mean 2^32" (request No. 3), for those who "work in whole machine words".
pub const WHOLE_WORDS: Modulus = Modulus(0);

/// The largest modulus but 2^32.
pub const TOP_WORD: u32 = 2_147_483_647;

impl Modulus {
    pub const fn of_word(word: u32) -> Modulus {
        Modulus(word)
    }

    /// What a caller writes and what is returned: "0 with no refusal means 2^32" (the readings of 02).
    pub const fn word(self) -> u32 {
        self.0
    }

    pub fn number(self) -> u64 {
        match self {
            WHOLE_WORDS => 1 << 32,
            Modulus(word) => u64::from(word),
        }
    }

    /// "No. 1 is now given for 1 and for words above 2,147,483,647."
    pub fn taken(self) -> bool {
        self.0 != 1 && self.0 <= TOP_WORD
    }

    /// Whether a number is below it, as coefficients and changes have to be; at 2^32 every word is.
    pub fn is_above(self, number: u32) -> bool {
        u64::from(number) < self.number()
    }

    /// m - 1.
    pub fn largest_below(self) -> u32 {
        (self.number() - 1) as u32
    }
}

impl fmt::Display for Modulus {
    fn fmt(&self, out: &mut fmt::Formatter) -> fmt::Result {
        match *self {
            WHOLE_WORDS => write!(out, "0 (2^32)"),
            Modulus(word) => write!(out, "{word}"),
        }
    }
}
