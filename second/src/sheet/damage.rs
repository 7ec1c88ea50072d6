//! Damage to the records of a sheet, which have a modulus each.

use super::{inputs, Places};
use crate::asked::Asked;
use crate::damage;
use crate::desk::BYTES;
use crate::modulus::{Modulus, WHOLE_WORDS};
use crate::polynomial::Polynomial;
use crate::random::Random;
use crate::record::Record;
use crate::refused::Refused;

/// Makes those of the lines due that are about the record at this place, by its own modulus.
pub fn spoil(place: &mut Option<Record>, lines: &[Refused], random: &mut Random) {
    let Some(record) = place else { return };
    let mut asked = Asked::one(record.modulus, record.f.clone());
    damage::spoil(&mut asked, lines, random);
    let (modulus, f) = (asked.m, asked.first().clone());
    *record = Record { modulus, f };
}

/// One record gets another modulus, or each does; each part is taken by its own.
pub fn part_the_moduli(places: &mut Places, random: &mut Random) {
    let one = random.between(0, places.used().count().max(1) - 1);
    let all = random.once_in(4);
    for (index, record) in places.0.iter_mut().flatten().enumerate() {
        if all || index == one {
            let n = record.f.degree().expect("the parts are taken");
            let modulus = other_modulus(record.modulus, random);
            let f = inputs::part(n, modulus, random);
            *record = Record { modulus, f };
        }
    }
}

/// Often one that looks the same when only some of its bytes are looked at, or 2^32, which looks like none.
fn other_modulus(m: Modulus, random: &mut Random) -> Modulus {
    loop {
        let (word, any) = (m.word(), inputs::modulus(random).word());
        let nearby = [word.wrapping_sub(1), word.wrapping_add(1)];
        let alike = [256, 1 << 16, 1 << 24].map(|bit| word ^ bit);
        let words = [&nearby[..], &alike, &[WHOLE_WORDS.word(), any, any]].concat();
        let other = Modulus::of_word(random.pick(&words));
        if other != m && other.taken() {
            return other;
        }
    }
}

/// A record with one byte that is not zero, or with its modulus only: it is used, but for a modulus of 2^32 only,
/// which is zero bytes.
pub fn faint(record: &mut [u8], modulus: Modulus, random: &mut Random) {
    let any = random.between(0, BYTES - 1);
    let byte = random.pick(&[0, 3, 4, BYTES - 1, BYTES - 1, any]);
    let f = Polynomial::ZERO;
    record.copy_from_slice(&Record { modulus, f }.bytes());
    if random.once_in(2) {
        record.fill(0);
        record[byte] = random.pick(&[1, 2, 128]);
    }
}
