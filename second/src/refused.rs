//! The refusal of 01: its number, which polynomial it concerns, and a power.

pub use crate::desk::Refused;
use std::fmt;

/// Which polynomial a refusal concerns.
pub const NEITHER: u32 = 0;
pub const FIRST: u32 = 1;
pub const SECOND: u32 = 2;

/// "Nos. 2 to 4 carry the place here" (request No. 2): in a chain sheet the place, from 0, stands where "first" and
/// "second" stand. The desk hands it over with 16 added, so that no place looks like "neither" or "first".
pub const fn at_place(place: usize) -> u32 {
    PLACE_0 + place as u32
}

const PLACE_0: u32 = 16;

impl Refused {
    pub const ANSWERED: Refused = Refused::plain(0);

    /// "Nos. 2, 3 and 4 name a polynomial, the others neither."
    pub const fn plain(number: u32) -> Refused {
        Refused::about(number, NEITHER)
    }

    /// Nos. 3 and 4, which name a polynomial and have power 0; and the line of No. 2, whatever its power.
    pub const fn about(number: u32, polynomial: u32) -> Refused {
        Refused { number, polynomial, power: 0 }
    }

    /// No. 2, the only one that carries a power of x.
    pub const fn coefficient(polynomial: u32, power: u32) -> Refused {
        Refused { number: 2, polynomial, power }
    }

    /// The line of the table, about this polynomial: the refusal without its power.
    pub const fn line(self) -> Refused {
        Refused::about(self.number, self.polynomial)
    }

    /// The same line about another polynomial, or about a place.
    pub const fn renamed(self, polynomial: u32) -> Refused {
        Refused { polynomial, ..self }
    }

    /// The line in few letters: "No. 2 first".
    pub fn brief(self) -> String {
        match (self.number, self.polynomial) {
            (0, _) => "answered".to_string(),
            (number, NEITHER) => format!("No. {number}"),
            (number, polynomial) => format!("No. {number} {}", word_for(polynomial)),
        }
    }
}

/// Nos. 2, 3 and 4 of a polynomial, in 01's order.
pub fn of_polynomial(polynomial: u32) -> [Refused; 3] {
    [2, 3, 4].map(|number| Refused::about(number, polynomial))
}

/// No. 1, Nos. 2 to 4 of so many polynomials, and those that come after them.
pub fn table(polynomials: u32, others: &[Refused]) -> Vec<Refused> {
    let mut lines = vec![Refused::plain(1)];
    lines.extend((FIRST..FIRST + polynomials).flat_map(of_polynomial));
    lines.extend(others);
    lines
}

fn word_for(polynomial: u32) -> String {
    match polynomial {
        NEITHER => "neither".to_string(),
        FIRST => "first".to_string(),
        SECOND => "second".to_string(),
        PLACE_0.. => format!("place {}", polynomial - PLACE_0),
        _ => "no such polynomial".to_string(),
    }
}

impl fmt::Display for Refused {
    /// All three numbers are always shown: an "answered" with a stray power is a difference too.
    fn fmt(&self, out: &mut fmt::Formatter) -> fmt::Result {
        let Refused { number, polynomial, power } = self;
        let what = if *number == 0 { "answered" } else { "refused" };
        write!(out, "number {number} ({what}), polynomial {polynomial} ({}), power {power}", word_for(*polynomial))
    }
}
