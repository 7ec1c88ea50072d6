//! Chain sheets by request No. 2: records, left to right, as many as a chain has parts at most; places not used are
//! zero bytes.

pub mod damage;
pub mod inputs;
pub mod kinds;

use crate::composition::chain_composed;
use crate::desk::{BYTES, LIMIT, PARTS, SHEET, TERMS};
use crate::modulus::{Modulus, WHOLE_WORDS};
use crate::operation::filled;
use crate::polynomial::Polynomial;
use crate::record::Record;
use crate::refused::Refused;

/// "The used places are not the first ones, none is used, or the moduli differ."
pub const MISPLACED: Refused = Refused::plain(12);
/// The composed degree is above the limit.
pub const TOO_HIGH: Refused = Refused::plain(10);

/// The places of a chain as a sheet or an area shows them, right or wrong; nothing where a place is not used.
pub struct Places(pub [Option<Record>; PARTS]);

impl Places {
    /// In a sheet a place is used if any of its bytes is not zero. Bytes that are missing are taken for zeros.
    pub fn of_sheet(sheet: &[u8]) -> Places {
        let mut places = Places(Default::default());
        let records = sheet.chunks(BYTES);
        for (place, bytes) in places.0.iter_mut().zip(records) {
            let used = bytes.iter().any(|&byte| byte != 0);
            *place = used.then(|| Record::read_padded(bytes));
        }
        places
    }

    /// In an area a place is used if any of its words is not zero. Words that are missing are taken for zeros.
    pub fn of_area(modulus: Modulus, area: &[u32]) -> Places {
        let mut places = Places(Default::default());
        for (place, words) in places.0.iter_mut().zip(area.chunks(TERMS)) {
            let f = Polynomial::of(words);
            *place = f.degree().map(|_| Record { modulus, f });
        }
        places
    }

    /// The used places from the left, each with its number.
    pub fn used(&self) -> impl Iterator<Item = (usize, &Record)> {
        let places = self.0.iter().enumerate();
        places.filter_map(|(place, record)| Some((place, record.as_ref()?)))
    }

    /// What stands at the used places, left to right.
    pub fn parts(&self) -> Vec<Polynomial> {
        self.used().map(|(_, record)| record.f.clone()).collect()
    }

    /// The moduli of the records at the used places, left to right.
    fn moduli(&self) -> impl Iterator<Item = Modulus> + '_ {
        self.used().map(|(_, record)| record.modulus)
    }

    /// Whether one of them is 2^32.
    pub fn at_2_32(&self) -> bool {
        self.moduli().any(|modulus| modulus == WHOLE_WORDS)
    }

    /// That of a chain that is taken, which has one.
    pub fn modulus(&self) -> Modulus {
        self.moduli().next().expect("a place is used")
    }

    /// They are compared as words: no two words mean one number.
    pub fn moduli_differ(&self) -> bool {
        let mut others = self.moduli().skip(1);
        others.any(|other| other != self.modulus())
    }

    /// "The used places are not the first ones, none is used": counted from the left, they would be places 0, 1, 2
    /// and so on.
    pub fn not_the_first(&self) -> bool {
        let mut counted = self.used().enumerate().peekable();
        counted.peek().is_none() || counted.any(|(count, (place, _))| count != place)
    }

    /// The product of the degrees that the used places show, right or wrong.
    pub fn composed_degree(&self) -> usize {
        let degree = |f: &Polynomial| f.degree().unwrap_or(0);
        self.parts().iter().map(degree).product()
    }

    pub fn too_high(&self) -> bool {
        self.composed_degree() > LIMIT
    }

    /// The parts composed, where nothing is refused.
    pub fn composed(&self) -> Polynomial {
        chain_composed(&self.parts(), self.modulus())
    }

    /// These places in an area: all words that are used are another's then, and those past them never change.
    pub fn in_area(&self, area: &[u32]) -> Vec<u32> {
        let part = |place: &Option<Record>| place.as_ref().map(|record| record.f.clone());
        let parts = self.0.each_ref().map(part);
        filled(area, &parts.map(|part| part.unwrap_or(Polynomial::ZERO)))
    }

    /// These places in a sheet: bytes past those that are used never change.
    pub fn in_sheet(&self, sheet: &[u8]) -> Vec<u8> {
        let mut after = sheet.to_vec();
        after[..SHEET].fill(0);
        for (place, record) in self.used() {
            after[place * BYTES..][..BYTES].copy_from_slice(&record.bytes());
        }
        after
    }
}
