//! Write a chain sheet, from a modulus and a chain area; and read one, which gives its modulus, fills a chain area
//! and composes the parts (request No. 2).

use crate::common::*;
use crate::damage::{spoiled_modulus, with_due};
use crate::lent::garbage;
use crate::sheet::inputs::{self as chains, Lengths};
use crate::sheet::{self, kinds, Places, MISPLACED, TOO_HIGH};

/// What both can be given and answer.
fn kinds_of_both() -> Vec<&'static str> {
    [&kinds::taken()[..], &kinds::MODULI, &inputs::KINDS, &kinds::TOO_HIGH_BY, &kinds::NOT_FIRST, &kinds::LENGTHS]
        .concat()
}

fn kinds(places: &Places, asked: &Asked, answer: &Answer) -> Option<Vec<&'static str>> {
    match answer.refused {
        Refused::ANSWERED => Some([kinds::of_chain(places), kinds::of_lengths(asked).to_vec()].concat()),
        SHORT => Some(Vec::from_iter(kinds::of_too_short(asked))),
        TOO_HIGH => Some(Vec::from_iter(kinds::of_too_high(places))),
        _ => None,
    }
}

fn too_short(asked: &Asked) -> Option<Refused> {
    (asked.bytes.len() < SHEET || asked.words.len() < WORDS).then_some(SHORT)
}

// The writer. The sheet is as the caller lends it.

/// "The writer tests 11, 1, 12 by its used places, each used part's 2 to 4, then 10."
fn writing_order() -> Vec<Refused> {
    let of_parts = (0..PARTS).flat_map(|place| of_polynomial(at_place(place)));
    [SHORT, Refused::plain(1), MISPLACED].into_iter().chain(of_parts).chain([TOO_HIGH]).collect()
}

const FIRST_WORD_ONLY: &str = "used by its first word only";
const LAST_WORD_ONLY: &str = "used by its last word only";

pub const WRITE: Entry = Entry {
    name: "write_sheet",
    operation: Operation::WriteSheet,
    usual: || 50_000,
    input: |index, random| {
        let Some(lines) = chains::wanted(&writing_order(), index, random) else {
            return writing_scattered(random).into();
        };
        with_due(&lines, writing_due, || writing_by_lines(&lines, random)).into()
    },
    own: Some(own_written),
    kinds: |asked, answer| {
        let places = area_places(asked);
        kinds(&places, asked, answer).unwrap_or_else(|| match answer.refused {
            MISPLACED => Vec::from_iter(kinds::of_used_places(&places)),
            _ => kinds_of_words(&places),
        })
    },
    wanted: || Wanted {
        order: writing_order(),
        kinds: [&kinds_of_both()[..], &[FIRST_WORD_ONLY, LAST_WORD_ONLY]].concat(),
        at_2_32: Some(kinds::taken_at_2_32()),
        ..Wanted::default()
    },
    ..Entry::USUAL
};

fn kinds_of_words(places: &Places) -> Vec<&'static str> {
    let kind = |part: &Polynomial| {
        let mut others = part.0.iter().enumerate().filter(|(_, &word)| word != 0);
        match (others.next(), others.next()) {
            (Some((0, _)), None) => Some(FIRST_WORD_ONLY),
            (Some((place, _)), None) if place + 1 == TERMS => Some(LAST_WORD_ONLY),
            _ => None,
        }
    };
    places.parts().iter().filter_map(kind).collect()
}

fn area_places(asked: &Asked) -> Places {
    Places::of_area(asked.m, &asked.words)
}

pub fn own_written(asked: &Asked) -> Own {
    Own::new(Operation::WriteSheet, asked, writing_due(asked), || {
        Ok(Answer { bytes: area_places(asked).in_sheet(&asked.bytes), ..Answer::NOTHING })
    })
}

/// Each line of the table that is true, in the writer's order.
///
/// Of an area that is too short only 11 is due. What follows it here is what a writer would say that took the missing
/// words for zeros.
fn writing_due(asked: &Asked) -> Vec<Refused> {
    let places = area_places(asked);
    let mut due = Vec::from_iter(too_short(asked));
    due.extend(asked.refusals_due());
    due.extend(places.not_the_first().then_some(MISPLACED));
    for (place, record) in places.used() {
        due.extend(record.f.refusals_due(asked.m, at_place(place)));
    }
    due.extend(places.too_high().then_some(TOO_HIGH));
    due
}

fn area_lent(m: Modulus, places: &Places, lengths: Lengths, random: &mut Random) -> Asked {
    let area = chains::garbage_words(lengths.area.max(WORDS), random);
    let mut area = places.in_area(&area);
    area.truncate(lengths.area);
    Asked::none(m).words(area).bytes(chains::garbage_bytes(lengths.sheet, random))
}

/// An input on which, most likely, the lines are due.
fn writing_by_lines(lines: &[Refused], random: &mut Random) -> Asked {
    let wants = |line: Refused| lines.contains(&line);
    let used = match wants(MISPLACED) {
        true => chains::other_places(lines, random),
        false => chains::first_places(lines, 1 + usize::from(wants(TOO_HIGH)), random),
    };
    let m = chains::modulus(random);
    let mut places = chains::parts_at(used, wants(TOO_HIGH), m, random);
    let m = spoil(&mut places, m, lines, random);
    area_lent(m, &places, Lengths::random(wants(SHORT), random), random)
}

/// Gives the modulus, spoiled or not.
fn spoil(places: &mut Places, m: Modulus, lines: &[Refused], random: &mut Random) -> Modulus {
    let mut of_parts = lines.to_vec();
    for (which, (place, _)) in (FIRST..).zip(places.used()) {
        of_parts.extend(chains::about_place(lines, place, which));
    }
    let mut asked = Asked { polynomials: places.parts(), ..Asked::none(m) };
    damage::spoil(&mut asked, &of_parts, random);
    for (record, f) in places.0.iter_mut().flatten().zip(asked.polynomials) {
        record.f = f;
    }
    asked.m
}

/// A chain that is taken, or one with a word changed, or with a place that is used by a single word.
fn writing_scattered(random: &mut Random) -> Asked {
    let places = chains::taken(random);
    let lengths = Lengths::random(false, random);
    let mut asked = area_lent(places.modulus(), &places, lengths, random);
    let any = garbage(random);
    match random.below(8) {
        0 => {
            let word = random.between(0, WORDS - 1);
            asked.words[word] = random.pick(&[0, 1, 256, asked.m.word(), any]);
        }
        1 | 2 => {
            let place = random.between(0, PARTS - 1);
            one_word(&mut asked.words[place * TERMS..][..TERMS], random);
        }
        _ => {}
    }
    asked
}

/// The first and the last word of a place are the likeliest ones to be missed, and a word whose low bytes are zero.
fn one_word(place: &mut [u32], random: &mut Random) {
    let any = random.between(0, TERMS - 1);
    let at = random.pick(&[0, TERMS - 1, any]);
    let any = garbage(random);
    place.fill(0);
    place[at] = random.pick(&[1, 2, 1 << 24, any]);
}

// The reader. The area is as the caller lends it.

/// No. 12 "is tested after each used record's own 1 to 4, taken left to right, and before 10"; 11 comes first. A
/// record's No. 1 stands here with its place, since it is tested at its place, though it is given without.
fn reading_order() -> Vec<Refused> {
    let of_place = |place| [1, 2, 3, 4].map(|number| Refused::about(number, at_place(place)));
    [SHORT].into_iter().chain((0..PARTS).flat_map(of_place)).chain([MISPLACED, TOO_HIGH]).collect()
}

const MODULI_DIFFER: &str = "moduli differ";
const GAP_TOO_HIGH: &str = "not the first places, where No. 10 was due too";
const DIFFER_TOO_HIGH: &str = "moduli differ, where No. 10 was due too";
const SOME_AT_2_32: &str = "moduli differ, 2^32 among them";
const MODULUS_ONLY: &str = "used by its modulus word only";
const LAST_BYTE_ONLY: &str = "used by its last byte only";
const READING: [&str; 6] = [MODULI_DIFFER, GAP_TOO_HIGH, DIFFER_TOO_HIGH, SOME_AT_2_32, MODULUS_ONLY, LAST_BYTE_ONLY];

pub const READ: Entry = Entry {
    name: "read_sheet",
    operation: Operation::ReadSheet,
    input: |index, random| {
        let Some(lines) = chains::wanted(&reading_order(), index, random) else {
            return reading_scattered(random).into();
        };
        with_due(&lines, reading_due, || reading_by_lines(&lines, random)).into()
    },
    own: Some(own_read),
    at_2_32: |asked| Places::of_sheet(&asked.bytes).at_2_32(),
    kinds: |asked, answer| {
        let places = Places::of_sheet(&asked.bytes);
        kinds(&places, asked, answer).unwrap_or_else(|| match answer.refused {
            MISPLACED => kinds_misplaced(&places),
            _ => kinds_of_records(&asked.bytes),
        })
    },
    wanted: || Wanted {
        order: reading_order(),
        kinds: [&kinds_of_both()[..], &READING].concat(),
        at_2_32: Some(kinds::taken_at_2_32()),
        ..Wanted::default()
    },
    ..WRITE
};

fn kinds_misplaced(places: &Places) -> Vec<&'static str> {
    let (kind, with_10) = match kinds::of_used_places(places) {
        Some(kind) => (kind, GAP_TOO_HIGH),
        None => (MODULI_DIFFER, DIFFER_TOO_HIGH),
    };
    let some_at_2_32 = places.moduli_differ() && places.at_2_32();
    let others = places.too_high().then_some(with_10).into_iter().chain(some_at_2_32.then_some(SOME_AT_2_32));
    [kind].into_iter().chain(others).collect()
}

fn kinds_of_records(sheet: &[u8]) -> Vec<&'static str> {
    let kind = |bytes: &[u8]| {
        let first = bytes.iter().position(|&byte| byte != 0)?;
        let last = bytes.iter().rposition(|&byte| byte != 0)?;
        match (first, last) {
            (0..4, 0..4) => Some(MODULUS_ONLY),
            _ => (first + 1 == BYTES).then_some(LAST_BYTE_ONLY),
        }
    };
    sheet.chunks(BYTES).take(PARTS).filter_map(kind).collect()
}

pub fn own_read(asked: &Asked) -> Own {
    Own::new(Operation::ReadSheet, asked, reading_due(asked), || {
        let places = Places::of_sheet(&asked.bytes);
        let (numbers, words) = (vec![places.modulus().word() as usize], places.in_area(&asked.words));
        Ok(Answer { numbers, words, ..Answer::one(places.composed()) })
    })
}

/// Each line of the table that is true, in the reader's order.
///
/// Of a sheet that is too short only 11 is due. What follows it here is what a reader would say that took the missing
/// bytes for zeros.
fn reading_due(asked: &Asked) -> Vec<Refused> {
    let places = Places::of_sheet(&asked.bytes);
    let mut due = Vec::from_iter(too_short(asked));
    for (place, record) in places.used() {
        let of_record = Asked::one(record.modulus, record.f.clone()).refusals_due();
        due.extend(of_record.into_iter().map(|line| line.renamed(at_place(place))));
    }
    due.extend((places.not_the_first() || places.moduli_differ()).then_some(MISPLACED));
    due.extend(places.too_high().then_some(TOO_HIGH));
    due
}

fn sheet_lent(places: &Places, lengths: Lengths, random: &mut Random) -> Asked {
    let sheet = chains::garbage_bytes(lengths.sheet.max(SHEET), random);
    let mut sheet = places.in_sheet(&sheet);
    sheet.truncate(lengths.sheet);
    Asked::none(WHOLE_WORDS).bytes(sheet).words(chains::garbage_words(lengths.area, random))
}

/// An input on which, most likely, the lines are due.
fn reading_by_lines(lines: &[Refused], random: &mut Random) -> Asked {
    let wants = |line: Refused| lines.contains(&line);
    let gap = wants(MISPLACED) && random.once_in(2);
    let used = match gap {
        true => chains::other_places(lines, random),
        // Two at least can differ, or be too high together.
        false if wants(MISPLACED) || wants(TOO_HIGH) => chains::first_places(lines, 2, random),
        false => chains::first_places(lines, 1, random),
    };
    let m = chains::modulus(random);
    let mut places = chains::parts_at(used, wants(TOO_HIGH), m, random);
    if wants(MISPLACED) && (!gap || random.once_in(4)) {
        sheet::damage::part_the_moduli(&mut places, random);
    }
    for (place, record) in places.0.iter_mut().enumerate() {
        sheet::damage::spoil(record, &chains::about_place(lines, place, FIRST), random);
    }
    sheet_lent(&places, Lengths::random(wants(SHORT), random), random)
}

/// A chain that is taken, or one with a bit turned, with a faint record, or with one and the same bad modulus in all
/// records.
fn reading_scattered(random: &mut Random) -> Asked {
    let mut places = chains::taken(random);
    if random.once_in(16) {
        let bad = spoiled_modulus(random);
        places.0.iter_mut().flatten().for_each(|record| record.modulus = bad);
    }
    let lengths = Lengths::random(false, random);
    let mut asked = sheet_lent(&places, lengths, random);
    match random.below(8) {
        0 => {
            let byte = random.between(0, SHEET - 1);
            asked.bytes[byte] ^= 1 << random.below(8);
        }
        1 | 2 => {
            let place = random.between(0, PARTS - 1);
            let record = &mut asked.bytes[place * BYTES..][..BYTES];
            sheet::damage::faint(record, places.modulus(), random);
        }
        _ => {}
    }
    asked
}
