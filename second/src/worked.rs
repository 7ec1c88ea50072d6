//! The worked cases of `samples/worked.cases`, which says how they are written. Both programs are held against them:
//! the desk, and this one, which is no better a witness than its own worked cases.

use crate::answer::{agree, By};
use crate::call::call;
use crate::common::*;
use crate::composition::{chain_composed, composed};
use crate::operation::NAMES;
use crate::operations::{chain, chains, changes, check, compose, left_part, part, quick, sheets, split, texts};
use crate::record::Record;
use crate::text;
use std::collections::HashMap;

const CASES: &str = include_str!("../../samples/worked.cases");

struct Case {
    line: &'static str,
    operation: Operation,
    asked: Asked,
    answer: Answer,
}

/// Compares all of them; gives what is to be said of it.
pub fn compare(seed: u64) -> Result<String, String> {
    let cases = cases()?;
    let mut said = String::new();
    for (name, operation) in NAMES {
        let entry = Entry { name, operation, ..Entry::USUAL };
        let mut count = 0;
        for (case, index) in cases.iter().filter(|case| case.operation == operation).zip(0..) {
            let wrong = |what: String| entry.difference(&format!("worked case {}", case.line), &case.asked, &what);
            agree(By("case", &case.answer), By("own", &own(operation, &case.asked).answer)).map_err(wrong)?;
            let mut random = Random::for_input(seed, "worked cases", index);
            let desk = call(operation, &case.asked, &mut random).map_err(wrong)?;
            agree(By("case", &case.answer), By("desk", &desk)).map_err(wrong)?;
            count += 1;
        }
        said += &format!("{name}: {count} worked cases, no difference\n");
    }
    Ok(said + &own_arithmetic(&cases)?)
}

fn own(operation: Operation, asked: &Asked) -> Own {
    let own = match operation {
        Operation::Check => check::own,
        Operation::Compose => compose::own,
        Operation::LeftPart => left_part::own,
        Operation::Split => split::own,
        Operation::Quick => quick::own,
        Operation::ChangePolynomial => changes::own_of_polynomial,
        Operation::ChangePair => changes::own_of_pair,
        Operation::Combine => changes::own_combined,
        Operation::Undo => changes::own_undone,
        Operation::Chain => chain::own,
        Operation::CountChains => chains::own_count,
        Operation::NthChain => chains::own_nth,
        Operation::Part => part::own,
        Operation::WriteSheet => sheets::own_written,
        Operation::ReadSheet => sheets::own_read,
        Operation::ReadText => text::own,
        Operation::WriteText => texts::own_written,
    };
    own(asked)
}

/// The parts of a chain compose to its polynomial, by all of this program's ways. A comparison with a second program
/// that cannot compose would say nothing.
fn own_arithmetic(cases: &[Case]) -> Result<String, String> {
    let found =
        |case: &&Case| !case.answer.is_refused() && matches!(case.operation, Operation::Chain | Operation::NthChain);
    let mut count = 0;
    for Case { line, asked, answer, .. } in cases.iter().filter(found) {
        let parts = parts(answer.numbers[0], &answer.words);
        let (leftmost, others) = parts.split_first().ok_or("a chain has a part")?;
        let by_horner = others.iter().try_fold(leftmost.clone(), |left, right| left.compose(right, asked.m));
        let by_halves = others.iter().fold(leftmost.clone(), |left, right| composed(&left, right, asked.m));
        let f = asked.first();
        if by_horner.as_ref() != Some(f) || by_halves != *f || chain_composed(&parts, asked.m) != *f {
            return Err(format!("own arithmetic: the parts do not compose: {line}"));
        }
        count += 1;
    }
    Ok(format!("own arithmetic: {count} worked chains compose\n"))
}

// Read from the file.

fn cases() -> Result<Vec<Case>, String> {
    let (mut cases, mut names) = (Vec::new(), HashMap::new());
    for line in CASES.lines().filter(|line| !line.is_empty() && !line.starts_with('#')) {
        let body = line.split("  # ").next().unwrap_or(line);
        let (left, right) = body.split_once(" = ").ok_or(format!("no = in: {line}"))?;
        match left.split_once(' ') {
            None => drop(names.insert(left, polynomial(right, &HashMap::new()).ok_or(line)?)),
            Some((name, request)) => {
                let operation = NAMES.iter().find(|(known, _)| *known == name).ok_or(line)?.1;
                let (request, answer) = (with_figures(request), with_figures(right));
                cases.extend(case(line, operation, &request, &answer, &names).ok_or(format!("no case: {line}"))?);
            }
        }
    }
    Ok(cases)
}

/// The figures in braces worked out, left to right.
fn with_figures(text: &str) -> String {
    let mut figures = text.split('{');
    let first = figures.next().unwrap_or("").to_string();
    figures.fold(first, |text, piece| {
        let (figure, rest) = piece.split_once('}').expect("a brace is closed");
        let end = figure.find(|c: char| !c.is_alphabetic()).unwrap_or(figure.len());
        let known = [
            ("limit", LIMIT),
            ("terms", TERMS),
            ("parts", PARTS),
            ("words", WORDS),
            ("bytes", BYTES),
            ("sheet", SHEET),
        ];
        let named = known.iter().find(|(name, _)| *name == &figure[..end]).expect("a figure of the desk").1;
        let mut value = named;
        let mut doing = &figure[end..];
        while !doing.is_empty() {
            let end = 1 + doing[1..].find(|c: char| !c.is_ascii_digit()).unwrap_or(doing.len() - 1);
            let number: usize = doing[1..end].parse().expect("a number");
            value = match &doing[..1] {
                "+" => value + number,
                "-" => value - number,
                "*" => value * number,
                _ => value / number,
            };
            doing = &doing[end..];
        }
        format!("{text}{value}{rest}")
    })
}

type Names = HashMap<&'static str, Polynomial>;

/// A list, terms, or a name.
fn polynomial(token: &str, names: &Names) -> Option<Polynomial> {
    if let Some(known) = names.get(token) {
        return Some(known.clone());
    }
    if let Some(list) = token.strip_prefix('[').and_then(|rest| rest.strip_suffix(']')) {
        let coefficients: Option<Vec<u32>> = list.split_terminator(',').map(|c| c.parse().ok()).collect();
        return Some(Polynomial::of(&coefficients?));
    }
    let mut f = Polynomial::ZERO;
    for term in token.split('+') {
        let (coefficient, power) = match term.split_once('x') {
            None => (term, 0),
            Some((before, "")) => (before, 1),
            Some((before, power)) => (before, power.strip_prefix('^')?.parse().ok()?),
        };
        f.0[power] = match coefficient {
            "" => 1,
            number => number.trim_end_matches('*').parse().ok()?,
        };
    }
    Some(f)
}

fn record(token: &str, names: &Names) -> Option<Vec<u8>> {
    if let Some(list) = token.strip_prefix('<').and_then(|rest| rest.strip_suffix('>')) {
        let mut bytes: Vec<u8> = list.split(',').map(|byte| byte.parse().ok()).collect::<Option<_>>()?;
        bytes.resize(BYTES, 0);
        return Some(bytes);
    }
    match token.split_once(':') {
        None => (token == "-").then(|| vec![0; BYTES]),
        Some((m, f)) => Some(Record { modulus: Modulus::of_word(m.parse().ok()?), f: polynomial(f, names)? }.bytes()),
    }
}

/// "+0"*3, and \x20 for a byte.
fn quoted(token: &str) -> Option<Vec<u8>> {
    let (text, times) = token.strip_prefix('"')?.rsplit_once('"')?;
    let mut pieces = text.split("\\x");
    let mut bytes = pieces.next()?.as_bytes().to_vec();
    for piece in pieces {
        bytes.push(u8::from_str_radix(piece.get(..2)?, 16).ok()?);
        bytes.extend(piece[2..].bytes());
    }
    let times = times.strip_prefix('*').map_or(Some(1), |times| times.parse().ok())?;
    Some(bytes.repeat(times))
}

fn refused(token: &str) -> Option<Refused> {
    let mut words = token.strip_prefix("No.")?.split(',');
    let number = words.next()?.parse().ok()?;
    let polynomial = match words.next() {
        None => return Some(Refused::plain(number)),
        Some("first") => FIRST,
        Some("second") => SECOND,
        Some(place) => at_place(place.strip_prefix("place")?.parse().ok()?),
    };
    Some(Refused { number, polynomial, power: words.next().map_or(Some(0), |power| power.parse().ok())? })
}

/// What stands on one side of a line.
#[derive(Default)]
struct Side {
    numbers: Vec<usize>,
    polynomials: Vec<Polynomial>,
    parts: Vec<Polynomial>,
    records: Vec<u8>,
    text: Vec<u8>,
    lengths: Vec<usize>,
}

fn side(text: &str, names: &Names) -> Option<Side> {
    let mut side = Side::default();
    let (mut inside, mut behind_in) = (false, false);
    for token in text.split(' ') {
        match token.as_bytes() {
            b"(" => inside = true,
            b")" => inside = false,
            b"in" => behind_in = true,
            [b'"', ..] => side.text.extend(quoted(token)?),
            [b'<' | b'-', ..] => side.records.extend(record(token, names)?),
            _ if token.contains(':') => side.records.extend(record(token, names)?),
            [b'0'..=b'9', ..] if !token.contains('x') => match behind_in {
                true => side.lengths.push(token.parse().ok()?),
                false => side.numbers.push(token.parse().ok()?),
            },
            _ if inside => side.parts.push(polynomial(token, names)?),
            _ => side.polynomials.push(polynomial(token, names)?),
        }
    }
    Some(side)
}

/// What stands in lent memory that is given nothing, or past what is given.
const WORD: u32 = 0xDEAD_BEEF;
const BYTE: u8 = 0xEE;

/// As long as it says, with garbage past what is given.
fn lent<T: Copy>(mut given: Vec<T>, length: usize, garbage: T) -> Vec<T> {
    given.resize(length, garbage);
    given
}

/// The request: what is lent is longer than what is used where no length is given.
fn asked(operation: Operation, mut side: Side) -> Option<Asked> {
    let mut lengths = side.lengths.into_iter();
    let mut length = |usual| lengths.next().unwrap_or(usual);
    let m = match operation {
        Operation::Check | Operation::Part | Operation::ReadSheet => WHOLE_WORDS,
        _ => Modulus::of_word(u32::try_from(side.numbers.remove(0)).ok()?),
    };
    let words = match operation {
        Operation::Part | Operation::WriteSheet => lent(filled(&[0; WORDS], &side.parts), length(WORDS + 38), WORD),
        _ if operation.fills_area() => vec![WORD; length(WORDS + 38)],
        _ => Vec::new(),
    };
    let bytes = match operation {
        Operation::Check => lent(side.records, length(BYTES), 0),
        Operation::WriteSheet => vec![BYTE; length(SHEET + 28)],
        Operation::ReadSheet => lent(lent(side.records, SHEET, 0), length(SHEET + 28), BYTE),
        Operation::WriteText => vec![BYTE; length(TEXT_MOST)],
        _ => side.text,
    };
    Some(Asked { m, polynomials: side.polynomials, numbers: side.numbers, words, bytes })
}

/// The answer to it: past what is written, lent memory stays.
fn answered(operation: Operation, asked: &Asked, side: &Side) -> Answer {
    let mut bytes = if operation.fills_bytes() { asked.bytes.clone() } else { Vec::new() };
    let written = match operation {
        Operation::WriteSheet => lent(side.records.clone(), SHEET, 0),
        _ => side.text.clone(),
    };
    bytes[..written.len()].copy_from_slice(&written);
    let words = if operation.fills_area() { filled(&asked.words, &side.parts) } else { Vec::new() };
    let (numbers, polynomials) = (side.numbers.clone(), side.polynomials.clone());
    Answer { refused: Refused::ANSWERED, numbers, polynomials, words, bytes }
}

/// The case, and for a written text those in areas that are just long enough and too short.
fn case(line: &'static str, operation: Operation, request: &str, answer: &str, names: &Names) -> Option<Vec<Case>> {
    let asked = asked(operation, side(request, names)?)?;
    let refused_by = |refused, asked: Asked| {
        let answer = operation.refused(refused, &asked);
        Case { line, operation, asked, answer }
    };
    if let Some(refused) = refused(answer) {
        return Some(vec![refused_by(refused, asked)]);
    }
    let side = side(answer, names)?;
    let answered_in = |asked: Asked| {
        let answer = answered(operation, &asked, &side);
        Case { line, operation, asked, answer }
    };
    let mut cases = vec![answered_in(asked.clone())];
    if operation == Operation::WriteText {
        let needed = side.text.len();
        let of = |length| asked.clone().bytes(vec![BYTE; length]);
        cases.extend([needed, needed + 1].map(|length| answered_in(of(length))));
        cases.extend([needed - 1, 1, 0].map(|length| refused_by(SHORT, of(length))));
    }
    Some(cases)
}
