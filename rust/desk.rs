//! The desk's functions as its static library exports them in C, for programs in Rust: `#[path = ".."] mod desk;`, and libdesk.a,
//! which `rt lib` in crates/desk writes, is linked. `examples/desk.h` says what each of them does and what a caller owes.

// Who uses this uses some of it.
#![allow(dead_code)]

/// The highest degree. All figures below follow from it, but for the longest text.
pub const LIMIT: usize = 126;
/// Coefficients of a polynomial, that of x^0 first.
pub const TERMS: usize = LIMIT + 1;
/// Parts of a chain at most: none has a degree below 2.
pub const PARTS: usize = LIMIT.ilog2() as usize;
/// Words of a chain area that are used.
pub const WORDS: usize = PARTS * TERMS;
/// Bytes of a record: the modulus, then the coefficients.
pub const BYTES: usize = 4 * (1 + TERMS);
/// Bytes of a chain sheet that are used: a record for each place of an area.
pub const SHEET: usize = PARTS * BYTES;
/// Bytes of the longest text that is read.
pub const TEXT_BYTES: usize = 8_192;
/// Bytes of an area in which every text fits that is written.
pub const TEXT_MOST: usize = 24 * TERMS;

pub type Polynomial = [u32; TERMS];

/// Number 0 means that the request was answered.
#[repr(C)]
#[derive(Clone, Copy, Debug, PartialEq, Eq, PartialOrd, Ord)]
pub struct Refused {
    pub number: u32,
    pub polynomial: u32,
    pub power: u32,
}

/// `desk_split`, `desk_quick` and `desk_left_part`, of this library or of another one.
pub type Split = unsafe extern "C" fn(u32, *const Polynomial, usize, *mut Polynomial, *mut Polynomial) -> Refused;
pub type Quick = unsafe extern "C" fn(u32, *const Polynomial, usize, *mut [usize; 2]) -> Refused;
pub type LeftPart = unsafe extern "C" fn(u32, *const Polynomial, *const Polynomial, *mut Polynomial) -> Refused;

#[rustfmt::skip] // a line for each
extern "C" {
    pub fn desk_check(bytes: *const u8, count: usize, modulus: *mut u32, f: *mut Polynomial, degree: *mut usize) -> Refused;
    pub fn desk_compose(m: u32, g: *const Polynomial, h: *const Polynomial, f: *mut Polynomial) -> Refused;
    pub fn desk_left_part(m: u32, f: *const Polynomial, h: *const Polynomial, g: *mut Polynomial) -> Refused;
    pub fn desk_split(m: u32, f: *const Polynomial, r: usize, g: *mut Polynomial, h: *mut Polynomial) -> Refused;
    pub fn desk_quick(m: u32, f: *const Polynomial, r: usize, answer: *mut [usize; 2]) -> Refused;
    pub fn desk_change_polynomial(m: u32, f: *const Polynomial, a: u32, b: u32, out: *mut Polynomial) -> Refused;
    pub fn desk_change_pair(m: u32, g: *const Polynomial, h: *const Polynomial, a: u32, b: u32, left: *mut Polynomial, right: *mut Polynomial) -> Refused;
    pub fn desk_combine(m: u32, a: u32, b: u32, a2: u32, b2: u32, out: *mut [u32; 2]) -> Refused;
    pub fn desk_undo(m: u32, a: u32, b: u32, out: *mut [u32; 2]) -> Refused;
    pub fn desk_chain(m: u32, f: *const Polynomial, area: *mut u32, count: usize, numbers: *mut [usize; 3]) -> Refused;
    pub fn desk_count_chains(m: u32, f: *const Polynomial, number: *mut usize) -> Refused;
    pub fn desk_nth_chain(m: u32, f: *const Polynomial, j: usize, area: *mut u32, count: usize, numbers: *mut [usize; 2]) -> Refused;
    pub fn desk_part(area: *const u32, count: usize, i: usize, place: *mut [usize; 2]);
    pub fn desk_write_sheet(m: u32, area: *const u32, words: usize, sheet: *mut u8, bytes: usize) -> Refused;
    pub fn desk_read_sheet(sheet: *const u8, bytes: usize, area: *mut u32, words: usize, modulus: *mut u32, f: *mut Polynomial) -> Refused;
    pub fn desk_read_text(m: u32, text: *const u8, count: usize, f: *mut Polynomial) -> Refused;
    pub fn desk_write_text(m: u32, f: *const Polynomial, area: *mut u8, count: usize, length: *mut usize) -> Refused;
}
