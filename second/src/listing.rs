//! The listing program of 01, a line for each record; and the program that writes the sheet of each record's chain
//! (request No. 2).

use crate::answer::Answer;
use crate::desk::SHEET;
use crate::operation::parts;
use crate::polynomial::Polynomial;
use crate::record::{self, Record};
use crate::runs::Program;
use crate::sheet::Places;

pub fn listing(path: String) -> Program {
    let own = |number, _: &Record, answer: &Answer| line(number, answer).into_bytes();
    Program { name: "listing", files: 120, path, own, apart: lines_apart }
}

/// "Record number from 1, refusal number or 0, degree, number of parts, tries, price, then the degrees left to right,
/// single spaces. A refused record gives its first two fields only."
fn line(number: usize, answer: &Answer) -> String {
    let refused = answer.refused.number;
    if refused != 0 {
        return format!("{number} {refused}\n");
    }
    let [count, tries, price] = answer.numbers[..] else { unreachable!("a chain has three numbers") };
    let parts = parts(count, &answer.words);
    let degrees: Vec<usize> = parts.iter().filter_map(Polynomial::degree).collect();
    let degree: usize = degrees.iter().product();
    let degrees: String = degrees.iter().map(|part| format!(" {part}")).collect();
    format!("{number} {refused} {degree} {count} {tries} {price}{degrees}\n")
}

fn lines_apart(own: &[u8], written: &[u8]) -> Option<String> {
    let (own, written) = (String::from_utf8_lossy(own), String::from_utf8_lossy(written));
    let (own, written) = own.lines().zip(written.lines()).find(|(own, written)| own != written)?;
    Some(format!("  own:     {own}\n  program: {written}"))
}

/// The area of a record that is refused is all zero, and so is its sheet: sheet k belongs to record k.
pub fn sheets(path: String) -> Program {
    let own =
        |_, record: &Record, answer: &Answer| Places::of_area(record.modulus, &answer.words).in_sheet(&[0; SHEET]);
    Program { name: "sheets", files: 40, path, own, apart: sheets_apart }
}

fn sheets_apart(own: &[u8], written: &[u8]) -> Option<String> {
    let mut both = (1..).zip(own.chunks(SHEET).zip(written.chunks(SHEET)));
    let (number, (own, written)) = both.find(|(_, (own, written))| own != written)?;
    Some(format!("sheet {number}\nown: {}program: {}", record::show(own), record::show(written)))
}
