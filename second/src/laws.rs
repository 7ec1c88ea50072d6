//! What the demands say of several operations together: the desk is asked in two ways and has to answer the same.
//! Beside the operations this adds that the desk is held against itself, whatever this program believes. Together the
//! three ask every operation.

use crate::answer::{agree, By};
use crate::call::call;
use crate::change;
use crate::common::*;
use crate::decomposition::part_degrees;
use crate::operations::chain::{chained, of_odd_parts, of_parts, taken};
use crate::record::Record;

pub const ALL: &[Entry] = &[ROUND_TRIP, CHANGED, WRITTEN_READ];

/// An error where the two ways do not answer the same.
fn same(what: &str, one: &Answer, other: &Answer) -> Result<(), String> {
    agree(By("one way", one), By("other", other)).map_err(|difference| format!("{what}\n{difference}"))
}

/// The polynomial that an operation answers.
fn made(operation: Operation, asked: &Asked, random: &mut Random) -> Result<Polynomial, String> {
    let answer = call(operation, asked, random)?;
    same("a request that is taken", &Answer { refused: Refused::ANSWERED, ..answer.clone() }, &answer)?;
    Ok(answer.polynomials[0].clone())
}

const HIGHEST: &str = "highest degree";

/// "Composing a monic pair with h(0) = 0 and such an r, within the degree limit, and splitting it at r returns that
/// pair" (demand 2); so do the left part and a quick yes. What is composed is the same after it was written as text
/// and read, or checked.
const ROUND_TRIP: Entry = Entry {
    name: "round_trip",
    usual: || 20_000,
    input: |_, random| {
        let (r, s) = inputs::two_degrees(random);
        let m = inputs::modulus_without(r, random);
        let g = inputs::monic(random, r, m);
        let mut h = inputs::monic(random, s, m);
        h.0[0] = 0;
        Asked::two(m, g, h).at(r).into()
    },
    desk: |_, asked, random| {
        let (m, r) = (asked.m, asked.number());
        let f = made(Operation::Compose, asked, random)?;
        let of_f = Asked::one(m, f.clone()).at(r);
        let with_h = Asked::two(m, f.clone(), asked.second().clone());
        let pair = Answer { polynomials: asked.polynomials.clone(), ..Answer::NOTHING };
        same("composed and split", &pair, &call(Operation::Split, &of_f, random)?)?;
        let left = Answer::one(asked.first().clone());
        same("composed and its left part", &left, &call(Operation::LeftPart, &with_h, random)?)?;
        same("composed and quick", &Answer::numbers(&[1, 0]), &call(Operation::Quick, &of_f, random)?)?;
        let text = call(Operation::WriteText, &of_f.clone().bytes([0xEE; TEXT_MOST]), random)?;
        let length = text.numbers[0].min(text.bytes.len());
        let typed = Asked::none(m).bytes(&text.bytes[..length]);
        same("written and read", &Answer::one(f.clone()), &call(Operation::ReadText, &typed, random)?)?;
        let record = Asked::none(m).bytes(Record { modulus: m, f: f.clone() }.bytes());
        let checked = Answer { numbers: vec![m.word() as usize, asked.degrees().iter().product()], ..Answer::one(f) };
        same("checked", &checked, &call(Operation::Check, &record, random)?)?;
        Ok(checked)
    },
    kinds: |asked, answer| {
        let highest = (answer.numbers[1] == LIMIT).then_some(HIGHEST);
        inputs::kind_of_modulus(asked.m).into_iter().chain(highest).collect()
    },
    wanted: || Wanted {
        kinds: [&inputs::KINDS[..], &[HIGHEST]].concat(),
        at_2_32: Some(vec![HIGHEST]),
        ..Wanted::default()
    },
    ..Entry::USUAL
};

/// The same before all chains: the words past those that are used are compared too.
const AREA: [u32; WORDS + 1] = [0xDEAD_BEEF; WORDS + 1];

/// "Changing f and then asking for its chain gives the same parts as asking first and carrying the change through the
/// parts by the stated rule. The degrees and the number of tries are the same", and so for a single split, its 'no
/// pair' included (demand 3). Two changes are one after they were combined, and none after that was undone.
const CHANGED: Entry = Entry {
    name: "changed_chain",
    usual: || 20_000,
    input: |_, random| {
        let asked = taken(false, random);
        let (first, second) = (inputs::change(random, asked.m), inputs::change(random, asked.m));
        asked.by(first).by(second).into()
    },
    desk: |_, asked, random| {
        let (m, f) = (asked.m, asked.first());
        let changed = |f: &Polynomial, by, random: &mut Random| {
            made(Operation::ChangePolynomial, &Asked::one(m, f.clone()).by(by), random)
        };
        let change = |answer: Answer| [answer.numbers[0] as u32, answer.numbers[1] as u32];
        let combined = change(call(Operation::Combine, &Asked { polynomials: Vec::new(), ..asked.clone() }, random)?);
        let undoing = change(call(Operation::Undo, &Asked::none(m).by(combined), random)?);
        let other = changed(f, combined, random)?;
        let by_steps = changed(&changed(f, asked.change(0), random)?, asked.change(1), random)?;
        same("changed twice", &Answer::one(other.clone()), &Answer::one(by_steps))?;
        same("and undone", &Answer::one(f.clone()), &Answer::one(changed(&other, undoing, random)?))?;

        let in_area = |f: &Polynomial| Asked::one(m, f.clone()).words(AREA.to_vec());
        let (of_f, of_other) = (in_area(f), in_area(&other));
        let chain = call(Operation::Chain, &of_f, random)?;
        let found = parts(chain.numbers[0], &chain.words);
        if found.is_empty() || found.iter().any(|part| part.degree().is_none()) {
            return Err("the desk's chain has no part, or one that is all zero".to_string());
        }
        // "Carrying a change along a chain is a rule and needs no operation": it is this program's own.
        let carried = change::along(&found, combined, m);
        let after = call(Operation::Chain, &of_other, random)?;
        same("the chain carried", &chained(&AREA, &carried, Some(chain.numbers[1])), &after)?;
        let first = call(Operation::NthChain, &of_other.clone().at(0), random)?;
        same("the first of all chains", &chained(&AREA, &carried, None), &first)?;
        let number = call(Operation::CountChains, &of_f, random)?;
        same("the number of chains", &number, &call(Operation::CountChains, &of_other, random)?)?;
        for r in part_degrees(asked.degree()) {
            let split = call(Operation::Split, &of_f.clone().at(r), random)?;
            let pair = Asked { polynomials: split.polynomials.clone(), ..Asked::none(m).by(combined) };
            let pair = if split.is_refused() { split } else { call(Operation::ChangePair, &pair, random)? };
            same("the split changed", &pair, &call(Operation::Split, &of_other.clone().at(r), random)?)?;
        }
        Ok(after)
    },
    kinds: |_, answer| Vec::from_iter(of_parts().get(answer.numbers[0].wrapping_sub(1)).copied()),
    wanted: || Wanted { kinds: of_parts().to_vec(), at_2_32: Some(of_odd_parts().to_vec()), ..Wanted::default() },
    ..Entry::USUAL
};

/// "Written and read gives the same chain", and "an accepted sheet, read and written, gives the same bytes" (request
/// No. 2); each part is handed out.
const WRITTEN_READ: Entry = Entry {
    name: "written_read",
    usual: || 10_000,
    input: |_, random| taken(false, random).into(),
    desk: |_, asked, random| {
        let chain = call(Operation::Chain, &asked.clone().words(AREA.to_vec()), random)?;
        let modulus = asked.m.word() as usize;
        let area = Asked::none(asked.m).words(chain.words.clone());
        let sheet = call(Operation::WriteSheet, &area.clone().bytes([0xEE; SHEET]), random)?;
        let read = call(Operation::ReadSheet, &area.clone().words(AREA.to_vec()).bytes(sheet.bytes.clone()), random)?;
        let words = chain.words.clone();
        same(
            "written and read",
            &Answer { numbers: vec![modulus], words, ..Answer::one(asked.first().clone()) },
            &read,
        )?;
        let again = call(Operation::WriteSheet, &area.clone().words(read.words).bytes([0xEE; SHEET]), random)?;
        same("read and written", &sheet, &again)?;
        for i in 0..PARTS {
            let place = if i < chain.numbers[0] { [i * TERMS, TERMS] } else { [0, 0] };
            same("a part", &Answer::numbers(&place), &call(Operation::Part, &area.clone().at(i), random)?)?;
        }
        Ok(chain)
    },
    ..CHANGED
};
