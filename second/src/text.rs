//! Typed polynomials by request No. 6: "sums and differences of products; a product's factors are a number, x or a
//! bracket holding a sum, joined by *, each with an optional power".
//!
//! A text is gone through three times, and nothing is built before it is known to be good: `language` finds the first
//! byte that can stand in no text, `steps` puts what is to be done in the order of doing it, `meaning` does it.

pub mod damage;
pub mod inputs;
pub mod kinds;
pub mod language;
pub mod limits;
pub mod meaning;
pub mod steps;
pub mod terms;
pub mod too_high;
pub mod writing;

use crate::answer::Answer;
use crate::asked::Asked;
use crate::desk::TEXT_BYTES;
use crate::entry::Own;
use crate::operation::Operation;
use crate::refused::{Refused, FIRST};

/// "Text has 1 to 8,192 bytes."
pub const MOST_BYTES: usize = TEXT_BYTES;
/// "Numbers have at most 10 digits .. Powers are written likewise."
pub const MOST_DIGITS: usize = 10;
/// "Brackets nest at most 8 deep."
pub const MOST_OPEN: usize = 8;

/// "13 for length", and "for spelling or power range".
pub const MISSPELT: Refused = Refused::plain(13);
/// "14 at a ninth open bracket where one may open."
pub const TOO_DEEP: Refused = Refused::plain(14);
/// A sum, product or power has a nonzero coefficient above the limit.
pub const TOO_HIGH: Refused = Refused::plain(10);

/// The answer to the reader of texts.
///
/// Where a text is misspelt or too deep it has no meaning, and 10 stands here if a reader that built things on the
/// way would have met it before the fault. Beside 10 stand 3 and 4 if they are due where what is above the limit is
/// left out.
pub fn own(asked: &Asked) -> Own {
    let (m, text) = (asked.m, &asked.bytes);
    let mut due = asked.refusals_due();
    let fault = language::first_fault(text);
    due.extend(fault.as_ref().map(|fault| fault.refused));
    let steps = match &fault {
        Some(fault) => steps::of_beginning(&text[..fault.place]),
        None => steps::of_text(text),
    };
    let built = meaning::built(&steps, m);
    due.extend(built.too_high.then_some(TOO_HIGH));
    if fault.is_none() {
        due.extend(built.polynomial.refusals_due(m, FIRST));
    }
    Own::new(Operation::ReadText, asked, due, || Ok(Answer::one(built.polynomial)))
}
