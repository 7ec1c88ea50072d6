//! Which texts are in the language, byte by byte: what has been read so far can begin a text of the language, and a
//! byte is a fault if with it that is so no longer. Nothing is taken apart here and nothing is worked out.

use super::{MISSPELT, MOST_BYTES, MOST_DIGITS, MOST_OPEN, TOO_DEEP};
use crate::desk::LIMIT;
use crate::refused::Refused;

/// The first fault from the left.
pub struct Fault {
    /// How many bytes stand before it; none for a fault of length.
    pub place: usize,
    pub refused: Refused,
}

/// None if the text is in the language.
pub fn first_fault(text: &[u8]) -> Option<Fault> {
    if text.is_empty() || text.len() > MOST_BYTES {
        let (place, refused) = (0, MISSPELT);
        return Some(Fault { place, refused });
    }
    let mut read = Beginning::NOTHING;
    for (place, &byte) in text.iter().enumerate() {
        match read.and(byte) {
            Ok(longer) => read = longer,
            Err(refused) => return Some(Fault { place, refused }),
        }
    }
    let (place, refused) = (text.len(), MISSPELT);
    (!read.is_text()).then_some(Fault { place, refused })
}

/// All that matters of what has been read for what may follow.
#[derive(Clone, Copy)]
pub struct Beginning {
    last: Last,
    open: usize,
}

#[derive(Clone, Copy)]
enum Last {
    /// Nothing, or an opening bracket: a sum begins.
    SumBegins,
    /// A sign or a *: a factor begins.
    FactorBegins,
    /// So many digits of a number.
    Number(usize),
    /// An x or a closing bracket.
    Unknown,
    /// A ^: the digits of a power begin.
    PowerBegins,
    /// So many digits of a power, and what they come to.
    Power(usize, usize),
}

use Last::*;

impl Beginning {
    pub const NOTHING: Beginning = Beginning { last: SumBegins, open: 0 };

    /// With one byte more, or the fault that this byte is.
    pub fn and(self, byte: u8) -> Result<Beginning, Refused> {
        let Beginning { last, open } = self;
        let same_bracket = |last| Ok(Beginning { last, open });
        match (last, byte) {
            (SumBegins, b'-') => same_bracket(FactorBegins),
            (SumBegins | FactorBegins, b'0'..=b'9') => same_bracket(Number(1)),
            (SumBegins | FactorBegins, b'x') => same_bracket(Unknown),
            (SumBegins | FactorBegins, b'(') if open == MOST_OPEN => Err(TOO_DEEP),
            (SumBegins | FactorBegins, b'(') => Ok(Beginning { last: SumBegins, open: open + 1 }),
            (Number(digits), b'0'..=b'9') if digits < MOST_DIGITS => same_bracket(Number(digits + 1)),
            (Number(_) | Unknown, b'^') => same_bracket(PowerBegins),
            (PowerBegins, b'0'..=b'9') => same_bracket(Power(1, value(byte))),
            (Power(digits, power), b'0'..=b'9') if digits < MOST_DIGITS && 10 * power + value(byte) <= LIMIT => {
                same_bracket(Power(digits + 1, 10 * power + value(byte)))
            }
            (Number(_) | Unknown | Power(..), b'*' | b'+' | b'-') => same_bracket(FactorBegins),
            (Number(_) | Unknown | Power(..), b')') if open > 0 => Ok(Beginning { last: Unknown, open: open - 1 }),
            _ => Err(MISSPELT),
        }
    }

    /// Whether nothing has to follow.
    fn is_text(self) -> bool {
        self.open == 0 && matches!(self.last, Number(_) | Unknown | Power(..))
    }
}

pub fn value(digit: u8) -> usize {
    usize::from(digit - b'0')
}
