//! Read a typed polynomial (request No. 6): at random, of all short texts of a few letters, and of texts that are one
//! byte or two off the language; and write a polynomial as text.

use crate::common::*;
use crate::damage::{spoiled_modulus, with_due};
use crate::inputs::choose;
use crate::sheet::inputs::garbage_bytes;
use crate::text::damage::{damaged, wandering, Edit, LETTERS};
use crate::text::inputs::{added, monic, nested, number, sum, taken, Room};
use crate::text::limits::{at_a_limit, long};
use crate::text::too_high::{self, vanishing};
use crate::text::{self, kinds, writing, MISSPELT, MOST_OPEN, TOO_DEEP, TOO_HIGH};
use crate::tiny::texts;

// Read.

const NO_DEGREE: Refused = Refused::about(3, FIRST);
const NOT_MONIC: Refused = Refused::about(4, FIRST);

const ORDER: [Refused; 6] = [Refused::plain(1), MISSPELT, TOO_DEEP, TOO_HIGH, NO_DEGREE, NOT_MONIC];

pub const READ: Entry = Entry {
    name: "read_text",
    operation: Operation::ReadText,
    usual: || 40_000,
    input: |index, random| {
        if !index.is_multiple_of(2) {
            return scattered(index, random).into();
        }
        let lines = damage::wanted(&ORDER, index / 2, random);
        with_due(&lines, |asked| text::own(asked).due, || by_lines(&lines, random)).into()
    },
    own: Some(text::own),
    kinds: |asked, answer| match answer.refused {
        Refused::ANSWERED => kinds::of_read(asked, &answer.polynomials[0]),
        MISSPELT | TOO_DEEP => kinds::of_fault(&asked.bytes),
        _ => Vec::new(),
    },
    wanted: || Wanted {
        order: ORDER.to_vec(),
        // A text has one first fault, and with a fault it means nothing.
        apart: vec![
            (MISSPELT, TOO_DEEP),
            (MISSPELT, NO_DEGREE),
            (MISSPELT, NOT_MONIC),
            (TOO_DEEP, NO_DEGREE),
            (TOO_DEEP, NOT_MONIC),
        ],
        kinds: [&kinds::READ[..], &kinds::FAULTS].concat(),
        at_2_32: Some(kinds::READ.to_vec()),
        ..Wanted::default()
    },
    ..Entry::USUAL
};

fn typed(m: Modulus, text: impl Into<Vec<u8>>) -> Asked {
    Asked::none(m).bytes(text)
}

/// A text on which, most likely, the lines are due. What is too high stands first: a reader would have built it
/// before it meets a fault.
fn by_lines(lines: &[Refused], random: &mut Random) -> Asked {
    let wants = |line: Refused| lines.contains(&line);
    let m = inputs::modulus(random);
    let room = Room { open: 3, ..Room::whole(m) };
    let n = random.between(2, 12);
    let mut text = match (wants(NO_DEGREE), wants(NOT_MONIC)) {
        (true, _) => sum(room.up_to(random.between(0, 1)), random),
        (_, true) => format!("{}*({})", number(m, random), monic(n, room, random)),
        _ => monic(n, room, random),
    };
    if wants(TOO_HIGH) {
        text = added(&too_high::too_high(m, random), &text);
    }
    if wants(TOO_DEEP) {
        let deep = nested(MOST_OPEN + 1, &sum(room, random));
        text = added(&text, &deep);
    }
    let text = match wants(MISSPELT) {
        true => damaged(&text, random),
        false => text.into_bytes(),
    };
    let m = match wants(Refused::plain(1)) {
        true => spoiled_modulus(random),
        false => m,
    };
    typed(m, text)
}

/// Up to here long texts, which cost the most, come often enough for what has to be met in a run of few inputs.
const MANY_LONG: u64 = 4_000;

/// A text of any kind; half of the long ones are at 2^32.
fn scattered(index: u64, random: &mut Random) -> Asked {
    let m = inputs::modulus(random);
    match random.below(32) {
        0 if index < MANY_LONG || random.once_in(8) => {
            let m = random.pick(&[m, WHOLE_WORDS]);
            typed(m, long(m, random))
        }
        1..10 => typed(m, at_a_limit(m, random)),
        10..16 => with_vanishing(random),
        16..20 => typed(m, wandering(random)),
        20..24 => typed(m, damaged(&taken(m, random), random)),
        24..26 => typed(m, sum(Room::whole(m), random)),
        _ => typed(m, taken(m, random)),
    }
}

/// Beside a polynomial that is taken; it is so still, if what may vanish does.
fn with_vanishing(random: &mut Random) -> Asked {
    let m = match random.once_in(4) {
        true => inputs::modulus(random),
        false => too_high::modulus(random),
    };
    let piece = vanishing(m, random);
    let text = taken(m, random);
    match random.once_in(2) {
        true => typed(m, added(&piece, &text)),
        false => typed(m, added(&text, &piece)),
    }
}

/// Of a short text, found in two ways.
fn own_in_two_ways(asked: &Asked) -> Own {
    let own = text::own(asked);
    assert!(own.answer == texts::read(asked), "the two own readings differ: {asked}");
    own
}

// One byte off the language, or two, at every place of some short texts: bytes inserted and replaced, each removed,
// any two exchanged, and all their beginnings.

/// In these every byte is put everywhere: they have every kind of place. L stands for the limit, H for half of it.
const EVERY_BYTE: [&str; 3] = ["(x^2+x)^2-3*x", "-x*2+x^3*1^0", "x^L+01"];

/// In these, every letter of the language; every limit but that of the length.
const EVERY_LETTER: [&str; 6] = [
    "x^2+9999999999",
    "x^0000000L",
    "((x))^0+(-x)*(-x)",
    "x^H*x^H-10*x",
    "((((((((x^2))))))))",
    "x^2-((((((((1))))))))",
];

#[derive(Clone, Copy)]
enum Kind {
    Insert(&'static [u8]),
    InsertTwo,
    Replace(&'static [u8]),
    Remove,
    Exchange,
    Cut,
}

/// A text, and what is done to it.
type Block = (&'static [u8], Kind);

/// Of a text all edits of every kind, and how many there are of each.
fn edits(text: &'static [u8], bytes: &'static [u8]) -> [(Block, u64); 6] {
    let (places, values, two_letters) = (text.len(), bytes.len(), LETTERS.len() * LETTERS.len());
    [
        (Kind::Insert(bytes), (places + 1) * values),
        (Kind::InsertTwo, (places + 1) * two_letters),
        (Kind::Replace(bytes), places * values),
        (Kind::Remove, places),
        (Kind::Exchange, places * places),
        (Kind::Cut, places),
    ]
    .map(|(kind, count)| ((text, kind), count as u64))
}

/// With the limit for L and its half for H; it lives as long as the program.
fn with_figures(text: &str) -> &'static [u8] {
    text.replace('L', &LIMIT.to_string()).replace('H', &(LIMIT / 2).to_string()).into_bytes().leak()
}

fn near_list() -> &'static List<Block> {
    static LIST: OnceLock<List<Block>> = OnceLock::new();
    LIST.get_or_init(|| {
        let every: &'static [u8] = Vec::from_iter(0..=u8::MAX).leak();
        let bytes = EVERY_BYTE.into_iter().flat_map(|of| edits(with_figures(of), every));
        List::of(bytes.chain(EVERY_LETTER.into_iter().flat_map(|of| edits(with_figures(of), LETTERS))))
    })
}

/// The text after edit number `number` of this kind.
fn edited((text, kind): Block, number: u64) -> Vec<u8> {
    let mut rest = number;
    let mut choice = |of: usize| choose(&mut rest, of as u64) as usize;
    let edit = match kind {
        Kind::Insert(bytes) => {
            let byte = bytes[choice(bytes.len())];
            Edit::Insert(choice(text.len() + 1), byte)
        }
        Kind::InsertTwo => {
            let (one, other) = (choice(LETTERS.len()), choice(LETTERS.len()));
            let place = choice(text.len() + 1);
            let text = Edit::Insert(place, LETTERS[other]).of(text);
            return Edit::Insert(place, LETTERS[one]).of(&text);
        }
        Kind::Replace(bytes) => {
            let byte = bytes[choice(bytes.len())];
            Edit::Replace(choice(text.len()), byte)
        }
        Kind::Remove => Edit::Remove(choice(text.len())),
        Kind::Exchange => Edit::Exchange(choice(text.len()), choice(text.len())),
        Kind::Cut => Edit::Cut(choice(text.len())),
    };
    edit.of(text)
}

pub const NEAR: Entry = Entry {
    name: "near_text",
    usual: || near_list().length(),
    is_list: true,
    input: |index, random| {
        let (block, number) = near_list().at(index);
        let words = [2, 4, 101, TOP_WORD, 0];
        typed(Modulus::of_word(random.pick(&words)), edited(block, number)).into()
    },
    own: Some(own_in_two_ways),
    kinds: |_, _| Vec::new(),
    wanted: || Wanted { alone: vec![MISSPELT, NO_DEGREE, NOT_MONIC], at_2_32: Some(Vec::new()), ..Wanted::default() },
    ..READ
};

// All short texts of a few letters.

/// All texts of up to 4 letters are read at every modulus, those of 5 at some: also the highest power, whose digits
/// are among the letters.
const SOME_LETTERS: &str = "0Lx^*+-()";
const AT_EVERY_MODULUS: usize = 4;

/// And all of 6 of these letters, in a frame.
const FEW_LETTERS: &[u8] = b"2x^*-";

const MODULI: [Modulus; 4] = [Modulus::of_word(2), Modulus::of_word(4), Modulus::of_word(101), WHOLE_WORDS];

/// All texts of so many of these letters, at a modulus, if it is not any.
#[derive(Clone, Copy)]
struct Texts {
    letters: &'static [u8],
    length: usize,
    m: Option<Modulus>,
    /// Whether a higher power is added, which takes 3 and 4 away: what such a short text means is seen then.
    framed: bool,
}

fn tiny_list() -> &'static List<Texts> {
    static LIST: OnceLock<List<Texts>> = OnceLock::new();
    LIST.get_or_init(|| {
        let letters = with_figures(SOME_LETTERS);
        let alone = |length, m| Texts { letters, length, m, framed: false };
        let framed = |letters, length| Texts { letters, framed: true, ..alone(length, None) };
        let lengths = 0..=AT_EVERY_MODULUS;
        let every = lengths.clone().flat_map(|length| MODULI.map(|m| alone(length, Some(m))));
        let some = [alone(AT_EVERY_MODULUS + 1, None), framed(FEW_LETTERS, 6)];
        let blocks = every.chain(some).chain(lengths.map(|length| framed(letters, length)));
        List::of(blocks.map(|block| (block, (block.letters.len() as u64).pow(block.length as u32))))
    })
}

pub const TINY: Entry = Entry {
    name: "tiny_text",
    usual: || tiny_list().length(),
    is_list: true,
    input: |index, random| {
        let (block, mut number) = tiny_list().at(index);
        let m = block.m.unwrap_or_else(|| random.pick(&MODULI));
        let letters = block.letters;
        let letter = |_| letters[choose(&mut number, letters.len() as u64) as usize];
        let text = Vec::from_iter((0..block.length).map(letter));
        match block.framed {
            true => typed(m, [b"x^99+(", &text[..], b")"].concat()).into(),
            false => typed(m, text).into(),
        }
    },
    own: Some(own_in_two_ways),
    kinds: |_, _| Vec::new(),
    wanted: || Wanted { alone: vec![MISSPELT, NO_DEGREE], ..Wanted::default() },
    ..READ
};

// Write. f is the first and only polynomial; the area is as the caller lends it.

const EXACT: &str = "area as long as the text";
const ONE_MORE: &str = "area of one byte more";
const LONGER: &str = "longer area";
const ONE_LESS: &str = "area of one byte less";
const NO_AREA: &str = "area of no bytes";
const EVERY_TERM: &str = "every term";
const ONE_TERM: &str = "one term";
const MISSING_TERMS: &str = "zeros between terms";
const TEN_DIGITS: &str = "coefficient of 10 digits";
const LONGEST: &str = "all coefficients of 10 digits";
const WRITING: [&str; 10] =
    [EXACT, ONE_MORE, LONGER, ONE_LESS, NO_AREA, EVERY_TERM, ONE_TERM, MISSING_TERMS, TEN_DIGITS, LONGEST];

/// The least number of 10 digits.
const OF_TEN_DIGITS: u32 = 1_000_000_000;

pub const WRITE: Entry = Entry {
    name: "write_text",
    operation: Operation::WriteText,
    usual: || 40_000,
    input: |index, random| {
        let lines = damage::wanted(&table(1, &[SHORT]), index, random);
        with_due(&lines, writing_due, || writing_by_lines(&lines, random)).into()
    },
    own: Some(own_written),
    kinds: |asked, answer| {
        let (needed, given) = (writing::text(asked.first()).len(), asked.bytes.len());
        match answer.refused {
            Refused::ANSWERED => kinds_written(asked.first(), given - needed),
            SHORT if given == 0 => vec![NO_AREA],
            SHORT if given + 1 == needed => vec![ONE_LESS],
            _ => Vec::new(),
        }
    },
    wanted: || Wanted {
        order: table(1, &[SHORT]),
        kinds: WRITING.to_vec(),
        at_2_32: Some(WRITING.to_vec()),
        ..Wanted::default()
    },
    ..Entry::USUAL
};

fn kinds_written(f: &Polynomial, more: usize) -> Vec<&'static str> {
    let terms = f.used().iter().filter(|&&c| c != 0).count();
    let of_ten_digits = f.0.iter().filter(|&&c| c >= OF_TEN_DIGITS).count();
    let first = f.0.iter().position(|&c| c != 0).unwrap_or(0);
    let kinds = [
        (EXACT, more == 0),
        (ONE_MORE, more == 1),
        (LONGER, more > 1),
        (ONE_TERM, terms == 1),
        (EVERY_TERM, terms == TERMS),
        (MISSING_TERMS, terms < f.used().len() - first),
        (TEN_DIGITS, of_ten_digits > 0),
        (LONGEST, of_ten_digits == LIMIT),
    ];
    kinds.into_iter().filter(|(_, is)| *is).map(|(kind, _)| kind).collect()
}

/// Over the first bytes of the area; nothing is written "past the text".
pub fn own_written(asked: &Asked) -> Own {
    Own::new(Operation::WriteText, asked, writing_due(asked), || {
        let text = writing::text(asked.first());
        let bytes = [&text, &asked.bytes[text.len()..]].concat();
        Ok(Answer { bytes, ..Answer::numbers(&[text.len()]) })
    })
}

/// "11 if the area is shorter than the text."
fn writing_due(asked: &Asked) -> Vec<Refused> {
    let mut due = asked.refusals_due();
    due.extend((asked.bytes.len() < writing::text(asked.first()).len()).then_some(SHORT));
    due
}

/// An input on which, most likely, the lines are due.
fn writing_by_lines(lines: &[Refused], random: &mut Random) -> Asked {
    let m = inputs::modulus(random);
    let f = match random.below(3) {
        0 => of_digits(m, random),
        _ => inputs::polynomial(random, m),
    };
    let mut asked = Asked::one(m, f);
    damage::spoil(&mut asked, lines, random);
    let needed = writing::text(asked.first()).len();
    let length = area_length(needed, lines.contains(&SHORT), random);
    asked.bytes(garbage_bytes(length, random))
}

fn area_length(needed: usize, short: bool, random: &mut Random) -> usize {
    let any = random.between(0, needed);
    let less = needed.saturating_sub(1);
    match short {
        true => random.pick(&[0, 0, less, less, less.min(any)]),
        false => needed + random.pick(&[0, 0, 1, 2, 100, any]),
    }
}

/// Coefficients on both sides of one more digit, or all of them as long as they can be; some are left out, or none.
fn of_digits(m: Modulus, random: &mut Random) -> Polynomial {
    let any = inputs::degree(random);
    let n = random.pick(&[any, LIMIT]);
    let longest = random.once_in(2);
    let left_out = random.pick(&[0, 0, 1, 4]);
    let mut f = Polynomial::ZERO;
    for place in &mut f.0[..n] {
        let power_of_ten = 10_u32.pow(random.below(10) as u32);
        let edge = random.pick(&[power_of_ten, power_of_ten - 1, u32::MAX]);
        let any = inputs::residue(random, m);
        let wanted = if longest { any.max(OF_TEN_DIGITS) } else { edge };
        if random.below(8) >= left_out {
            *place = wanted.min(m.largest_below());
        }
    }
    f.0[n] = 1;
    f
}
