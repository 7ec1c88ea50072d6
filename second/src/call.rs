//! The desk is asked: only here does the program touch it.
//!
//! Each call lends the desk memory of its own, filled with garbage and fenced, and gives what stands in it
//! afterwards. An error is about memory that the desk had no right to write.

use crate::answer::Answer;
use crate::asked::Asked;
use crate::desk::*;
use crate::lent::{Given, Lent};
use crate::operation::Operation;
use crate::polynomial::Polynomial as Coefficients;
use crate::random::Random;
use crate::refused::Refused;

/// The answer of the desk.
pub fn call(operation: Operation, asked: &Asked, random: &mut Random) -> Result<Answer, String> {
    let mut given: Vec<_> = asked.polynomials.iter().map(|f| Given::words(&f.0, random)).collect();
    let (mut area, mut lent_area) = (Given::words(&asked.words, random), Lent::words(&asked.words, random));
    let (mut data, mut lent_data) = (Given::bytes(&asked.bytes, random), Lent::bytes(&asked.bytes, random));
    let mut small = Lent::garbage(operation.small(), random);
    let mut counts = Lent::counts(operation.counts(), random);
    let mut made: Vec<_> = (0..operation.polynomials()).map(|_| Lent::garbage(TERMS, random)).collect();

    let m = asked.m.word();
    let number = |i: usize| asked.numbers[i];
    let word = |i: usize| asked.numbers[i] as u32;
    let mut polynomials = given.iter_mut().map(|f| f.pointer().cast::<Polynomial>());
    let mut next = || polynomials.next().expect("as many polynomials as the operation takes");
    let mut results = made.iter_mut().map(|f| f.pointer().cast::<Polynomial>());
    let mut result = || results.next().expect("as many as it makes");
    let words = (area.pointer(), area.count());
    let lent_words = (lent_area.pointer(), lent_area.count());
    let bytes = (data.pointer(), data.count());
    let lent_bytes = (lent_data.pointer(), lent_data.count());
    let (small_out, counts_out) = (small.pointer(), counts.pointer());
    // SAFETY: the pointers are to live memory of the sizes that the declaration names, and no two of them overlap.
    let refused = unsafe {
        match operation {
            Operation::Check => desk_check(bytes.0, bytes.1, small_out, result(), counts_out),
            Operation::Compose => desk_compose(m, next(), next(), result()),
            Operation::LeftPart => desk_left_part(m, next(), next(), result()),
            Operation::Split => desk_split(m, next(), number(0), result(), result()),
            Operation::Quick => desk_quick(m, next(), number(0), counts_out.cast()),
            Operation::ChangePolynomial => desk_change_polynomial(m, next(), word(0), word(1), result()),
            Operation::ChangePair => desk_change_pair(m, next(), next(), word(0), word(1), result(), result()),
            Operation::Combine => desk_combine(m, word(0), word(1), word(2), word(3), small_out.cast()),
            Operation::Undo => desk_undo(m, word(0), word(1), small_out.cast()),
            Operation::Chain => desk_chain(m, next(), lent_words.0, lent_words.1, counts_out.cast()),
            Operation::CountChains => desk_count_chains(m, next(), counts_out),
            Operation::NthChain => desk_nth_chain(m, next(), number(0), lent_words.0, lent_words.1, counts_out.cast()),
            Operation::Part => {
                desk_part(words.0, words.1, number(0), counts_out.cast());
                Refused::ANSWERED
            }
            Operation::WriteSheet => desk_write_sheet(m, words.0, words.1, lent_bytes.0, lent_bytes.1),
            Operation::ReadSheet => desk_read_sheet(bytes.0, bytes.1, lent_words.0, lent_words.1, small_out, result()),
            Operation::ReadText => desk_read_text(m, bytes.0, bytes.1, result()),
            Operation::WriteText => desk_write_text(m, next(), lent_bytes.0, lent_bytes.1, counts_out),
        }
    };
    given.into_iter().try_for_each(|f| f.give_back("a given polynomial"))?;
    area.give_back("the chain area")?;
    data.give_back("the bytes")?;
    let small = small.give_back("the modulus or the change")?.into_iter().map(|word| word as usize);
    let numbers = small.chain(counts.give_back("the numbers")?).collect();
    let made = made.into_iter().map(|f| Ok(Coefficients::of(&f.give_back("a returned polynomial")?)));
    let (words, bytes) = (lent_area.give_back("the chain area")?, lent_data.give_back("the bytes")?);
    Ok(Answer {
        refused,
        numbers,
        polynomials: made.collect::<Result<_, String>>()?,
        words: if operation.fills_area() { words } else { Vec::new() },
        bytes: if operation.fills_bytes() { bytes } else { Vec::new() },
    })
}
