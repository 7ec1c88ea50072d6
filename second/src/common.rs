//! What nearly every operation's file uses.

pub use crate::answer::Answer;
pub use crate::asked::Asked;
pub(crate) use crate::damage;
pub use crate::desk::{BYTES, LIMIT, PARTS, SHEET, TERMS, TEXT_MOST, WORDS};
pub use crate::entry::{Entry, Input, Own};
pub(crate) use crate::inputs;
pub use crate::list::List;
pub use crate::modulus::{Modulus, TOP_WORD, WHOLE_WORDS};
pub use crate::operation::{filled, parts, Operation, SHORT};
pub use crate::polynomial::Polynomial;
pub use crate::random::Random;
pub use crate::refused::{at_place, of_polynomial, table, Refused, FIRST, SECOND};
pub use crate::residue::shares_factor;
pub use crate::tally::Wanted;
pub use std::sync::OnceLock;
