//! Texts read and written, beside plain Rust by the same method; and the texts that take longest to read.

use crate::desk::{desk_read_text, desk_write_text, Polynomial, LIMIT, TERMS, TEXT_BYTES};
use crate::modulus::modulus;
use crate::split::monic;
use crate::timing::{at, beside, by_turns, head, row, Random};
use crate::typed::{build, read, write};
use std::hint::black_box;

const MOST: u32 = 2147483647;

fn desk_read(m: u32, text: &[u8]) -> Result<Polynomial, u32> {
    let mut f = [0; TERMS];
    let refused = unsafe { desk_read_text(m, text.as_ptr(), text.len(), &mut f) };
    match refused.number {
        0 => Ok(f),
        number => Err(number),
    }
}

fn desk_write(m: u32, f: &Polynomial, area: &mut [u8]) -> Option<usize> {
    let mut length = 0;
    let refused = unsafe { desk_write_text(m, f, area.as_mut_ptr(), area.len(), &mut length) };
    (refused.number == 0).then_some(length)
}

/// The text, with a term before it if there must be one for an answer: of degree 2 or more, and monic.
fn answered(m: u32, text: &str) -> String {
    let v = build(m, text.as_bytes()).expect("the text is spelt well");
    assert!(!v.over, "nothing is above the limit");
    match (v.degree, v.coefficients[v.degree]) {
        (0..=1, _) => format!("x^2+{text}"),
        (_, 1) => text.to_string(),
        (n, c) => format!("{}*x^{n}+{text}", modulus(m) + 1 - c as u64),
    }
}

/// What both sides are timed by, after their whole answers were compared.
fn witness(answer: Result<Polynomial, u32>) -> u64 {
    black_box(answer).unwrap()[0] as u64
}

/// The text of a row, and that both sides answer it alike.
fn compared(label: &str, m: u32, text: &str) -> String {
    let text = answered(m, text);
    assert!(text.len() <= TEXT_BYTES);
    let answer = desk_read(m, text.as_bytes());
    assert!(answer.is_ok() && answer == read(m, text.as_bytes()), "{label}");
    text
}

fn reads(label: &str, calls: usize, m: u32, text: &str) {
    let text = compared(label, m, text);
    beside(
        &format!("read {label}{}", at(m)),
        calls,
        &mut |_| witness(desk_read(m, black_box(text.as_bytes()))),
        &mut |_| witness(read(m, black_box(text.as_bytes()))),
    );
}

/// The same of a text that takes milliseconds, by fewer turns.
fn reads_long(label: &str, turns: usize, m: u32, text: &str) {
    let text = compared(label, m, text);
    let sides: &mut [&mut dyn FnMut(usize) -> u64] =
        &mut [&mut |_| witness(desk_read(m, black_box(text.as_bytes()))), &mut |_| {
            witness(read(m, black_box(text.as_bytes())))
        }];
    let times = by_turns(label, turns, 1, sides);
    row(label, &[times[0] / 1e6, times[1] / 1e6], 1);
}

fn writes(label: &str, m: u32, f: &Polynomial) {
    let (mut area, mut other) = ([7; TEXT_BYTES], [7; TEXT_BYTES]);
    let length = desk_write(m, f, &mut area);
    assert!(length.is_some() && length == write(m, f, &mut other) && area == other);
    assert!(desk_read(m, &area[..length.unwrap()]) == Ok(*f));
    beside(
        &format!("write {label}{}", at(m)),
        20,
        &mut |_| desk_write(m, black_box(f), &mut area).unwrap() as u64,
        &mut |_| write(m, black_box(f), &mut other).unwrap() as u64,
    );
}

/// As people type them.
const TYPED: [&str; 6] = [
    "x^2+1",
    "(x^2+x)^2-3*x",
    "x^6-4*x^5+17*x^3-x+250",
    "-x^3*(2-x)+(x^2-1)^4",
    "((x^2+3*x+1)^3-2*(x^2+3*x+1)+5)^2",
    "(x^3-x)^4*(x^2+x+1)^3-7*(x^3-x)^2+1048576*x-(x+1)",
];

/// What a row is called by: the text, or its length.
fn named(text: &str) -> String {
    match text.len() {
        0..=30 => text.to_string(),
        n => format!("a typed text of {n} bytes"),
    }
}

/// c*x^n from the limit on and so on down to c*x^1 and c, with ten digits each.
fn terms(random: &mut Random) -> String {
    let mut number = || 1_000_000_000 + random.next() % 9_000_000_000;
    let term = |i: usize| format!("{}*x^{i}", number());
    let terms: Vec<String> = (1..TERMS).rev().map(term).collect();
    format!("{}+{}", terms.join("+"), number())
}

/// The text as often as there is room for it and for the term that `answered` may put before it, with * between.
fn joined(text: &str) -> String {
    let room = TEXT_BYTES - format!("4294967296*x^{LIMIT}+").len();
    vec![text; (room + 1) / (text.len() + 1)].join("*")
}

/// With the limit for L and its half for H.
fn with_figures(text: &str) -> String {
    text.replace('L', &LIMIT.to_string()).replace('H', &(LIMIT / 2).to_string())
}

/// A sum in brackets to a power, that in brackets to the same power, and so on.
fn nested(sum: &str, power: usize, deep: usize) -> String {
    (0..deep).fold(sum.to_string(), |text, _| format!("({text})^{power}"))
}

fn readers(random: &mut Random, m: u32) {
    for text in TYPED {
        reads(&named(text), 100, m, text);
    }
    reads(&format!("{TERMS} terms"), 20, m, &terms(random));
    reads("x+x+.., 4,000 terms", 1, m, &["x"; 4000].join("+"));
    let brackets = "((((((((x+1)+x)*x)-1)+x)*x)-1)+x)";
    reads("eight brackets", 20, m, brackets);
    for text in ["((((x+1)^2+x)^3+x)^3+x)^7", "(x+1)^L", "(x^2+x+1)^H"].map(with_figures) {
        reads(&text, 5, m, &text);
    }
    let one = with_figures("1^L");
    reads(&format!("{one}*{one}*.., 1,362 factors"), 1, m, &joined(&one));
}

/// A sum 1 + c·D with c^2 = 0 modulo m, the modulus, the power, and how deep: (1 + c·D)^k = 1 + k·c·D does not go above the limit.
const LONG: [(&str, u32, usize, usize); 7] = [
    ("2*x^L+1", 2 * 2, LIMIT, 1),
    ("2*x^L+1", 2 * 2, LIMIT - 1, 8),
    ("97*x^L+1", 97 * 97, LIMIT, 8),
    ("46337*(x^2+x+1)^H+1", 46337 * 46337, LIMIT - 1, 7),
    ("7^6*(x+1)^L+1", 7u32.pow(11), LIMIT - 1, 7),
    ("65536*x^L+1", 0, LIMIT - 1, 8),
    ("65536*(x+1)^L+1", 0, LIMIT - 1, 7),
];

fn longest() {
    println!();
    head("ms to read a text, the least of many", &["desk", "plain Rust"]);
    for (sum, m, power, deep) in LONG {
        let sum = with_figures(sum);
        let label = format!("{sum}, ^{power} {deep} deep, m = {}", modulus(m));
        reads_long(&label, 40, m, &nested(&sum, power, deep));
    }
    for (sum, m, power, deep) in [LONG[2], LONG[4]] {
        let sum = with_figures(sum);
        let text = joined(&nested(&sum, power, deep));
        let label = format!("{sum}, such texts joined, {} bytes", text.len());
        reads_long(&label, 3, m, &text);
    }
}

fn writers(random: &mut Random, m: u32) {
    writes(&format!("{TERMS} terms"), m, &monic(random, m, LIMIT));
    let mut f = [0; TERMS];
    f[LIMIT] = 1;
    writes(&format!("x^{LIMIT}"), m, &f);
    writes("(x^2+x)^2-3*x", m, &read(m, b"(x^2+x)^2-3*x").unwrap());
}

pub fn run() {
    let mut random = Random(6);
    for m in [MOST, 0] {
        readers(&mut random, m);
        writers(&mut random, m);
    }
    longest();
}
