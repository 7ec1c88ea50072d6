//! Texts that are one small step off another: a byte is inserted, removed, replaced, or two are exchanged.

use super::language::Beginning;
use crate::random::Random;

/// The bytes that can stand in a text.
pub const LETTERS: &[u8] = b"0123456789x^*+-()";

/// Others that a student may type, or that look alike in some bits.
const OTHERS: &[u8] = b"\0\t\n\r !\"#$%&',./:;<=>?@AXYZ[\\]_`ayz{|}~\x7f\x80\xaa\xb8\xd7\xf8\xff";

#[derive(Clone, Copy)]
pub enum Edit {
    /// Before the byte at a place, or at the end.
    Insert(usize, u8),
    Replace(usize, u8),
    Remove(usize),
    Exchange(usize, usize),
    /// All from a place on.
    Cut(usize),
}

impl Edit {
    pub fn of(self, text: &[u8]) -> Vec<u8> {
        let mut text = text.to_vec();
        match self {
            Edit::Insert(place, byte) => text.insert(place, byte),
            Edit::Replace(place, byte) => text[place] = byte,
            Edit::Remove(place) => drop(text.remove(place)),
            Edit::Exchange(one, other) => text.swap(one, other),
            Edit::Cut(place) => text.truncate(place),
        }
        text
    }

    /// Of a text that has that many bytes, one or more.
    fn any(length: usize, random: &mut Random) -> Edit {
        let place = random.between(0, length - 1);
        match random.below(8) {
            0..=2 => Edit::Insert(random.between(0, length), any_byte(random)),
            3..=4 => Edit::Replace(place, any_byte(random)),
            5 => Edit::Remove(place),
            6 => Edit::Exchange(place, random.between(0, length - 1)),
            _ => Edit::Cut(place),
        }
    }
}

fn any_byte(random: &mut Random) -> u8 {
    let letter = random.pick(LETTERS);
    let other = random.pick(OTHERS);
    let any = random.below(256) as u8;
    random.pick(&[letter, letter, letter, other, any])
}

/// One edit or, at times, two.
pub fn damaged(text: &str, random: &mut Random) -> Vec<u8> {
    let once = Edit::any(text.len(), random).of(text.as_bytes());
    match random.once_in(4) && !once.is_empty() {
        true => Edit::any(once.len(), random).of(&once),
        false => once,
    }
}

/// A text that goes wherever the language lets it, and now and then elsewhere.
pub fn wandering(random: &mut Random) -> Vec<u8> {
    let length = random.between(1, 40);
    let mut text = Vec::new();
    let mut read = Beginning::NOTHING;
    while text.len() < length {
        let byte = random.pick(LETTERS);
        match read.and(byte) {
            Ok(longer) => read = longer,
            Err(_) if random.once_in(100) => {}
            Err(_) => continue,
        }
        text.push(byte);
    }
    text
}
