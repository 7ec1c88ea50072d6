//! The independent second program of 01, and of the requests of 02.
//!
//!     second [--inputs N] [--seed S] [--only NAME] [--list PROGRAM] [--sheets PROGRAM] [--threads T]
//!
//! It answers every operation of the desk by itself, from 01 and 02 alone and sharing no code with the desk, calls
//! the desk's static library with the same input, and stops at the first difference. Where it can, it goes another
//! way than the desk: the left part by the powers of h and the triangular system of 000, the right part as a root of
//! the reversed polynomial, changes by binomials, every complete chain (request No. 5) by trying all degrees that its
//! parts could have, a typed text (request No. 6) by what may follow what and then step by step, a quick no (request
//! No. 7) by the forced pair composed in full, and for tiny sizes all of it by going through all g and h, all lists
//! of parts or all ways to cut a text. In a usual run left part, split and quick no are asked at all degrees of a
//! pair, of g(h) and of f that is another at any one place; with fewer inputs, at some of them. Then it holds the
//! desk against itself, by three laws that together ask every operation. About one input in seven is at modulus 2^32
//! (request No. 3), and what was met there is counted apart.
//!
//! N inputs are compared over all entries, after the worked cases of `samples/worked.cases`. Each entry gets its
//! share of them, the cheaper ones more; without N it is what the entry calls usual, and with 10000 or more at least
//! 3000, so that there may be more than N. An input depends on the seed (1 if not given), the entry and its index
//! only, so a difference at input I is met again by `--seed S --only NAME --inputs N` with N above I.
//!
//! With a PROGRAM it compares whole runs too: the program gets generated files of records, and what it writes is
//! compared to the last byte. With --list it is the listing of 01, with --sheets the sheet of each record's chain.
//!
//! It goes on T threads, or as many as there are cores; what it prints does not depend on them.
//!
//! The exit code is 0 without a difference, 1 with one, or when some refusal or kind of answer that an operation can
//! give was never met in a run of 10000 inputs or more, and 2 when the arguments are wrong.

mod answer;
mod asked;
mod call;
mod change;
mod common;
mod composition;
mod damage;
mod decomposition;
#[path = "../../rust/desk.rs"]
mod desk;
mod entry;
mod every_chain;
mod inputs;
mod laws;
mod lent;
mod list;
mod listing;
mod modulus;
mod near;
mod near_power;
mod operation;
mod operations;
mod polynomial;
mod powers;
mod random;
mod record;
mod refused;
mod residue;
mod run;
mod runs;
mod series;
mod shape;
mod sheet;
mod tally;
mod text;
mod tiny;
mod worked;

use entry::Entry;
use run::{shares, usual, Share};
use std::env;
use std::process::ExitCode;

const USAGE: &str = "second [--inputs N] [--seed S] [--only NAME] [--list PROGRAM] [--sheets PROGRAM] [--threads T]";

struct Wanted {
    shares: Vec<Share>,
    seed: u64,
    inputs: u64,
    threads: usize,
}

fn wanted(mut words: impl Iterator<Item = String>) -> Result<Wanted, String> {
    let (mut inputs, mut seed, mut only, mut programs, mut threads) = (None, 1, None, Vec::new(), run::usual_threads());
    while let Some(option) = words.next() {
        let value = words.next().ok_or(format!("{option} wants a value"))?;
        let number = || value.parse::<u64>().map_err(|_| format!("{option} wants a number, not {value}"));
        match option.as_str() {
            "--inputs" => inputs = Some(number()?),
            "--seed" => seed = number()?,
            "--threads" => threads = number()?.max(1) as usize,
            "--only" => only = Some(value),
            "--list" => programs.push(listing::listing(value)),
            "--sheets" => programs.push(listing::sheets(value)),
            _ => return Err(format!("no such option: {option}")),
        }
    }
    let entries = chosen(only.as_deref())?;
    let inputs = inputs.unwrap_or(usual(&entries));
    let mut shares = shares(&entries, inputs);
    shares.extend(programs.into_iter().map(Share::runs));
    Ok(Wanted { shares, seed, inputs, threads })
}

/// A name that is none would compare nothing and call it no difference.
fn chosen(only: Option<&str>) -> Result<Vec<Entry>, String> {
    let all: Vec<Entry> = operations::ALL.iter().chain(laws::ALL).copied().collect();
    let entries: Vec<_> = all.iter().filter(|entry| only.is_none_or(|name| name == entry.name)).copied().collect();
    match entries.is_empty() {
        true => {
            Err(format!("--only wants one of: {}", all.iter().map(|entry| entry.name).collect::<Vec<_>>().join(", ")))
        }
        false => Ok(entries),
    }
}

fn compare(Wanted { shares, seed, inputs, threads }: &Wanted) -> Result<u64, String> {
    println!("second: seed {seed}, {inputs} inputs");
    print!("{}", worked::compare(*seed)?);
    run::run(shares, *seed, *threads)
}

fn main() -> ExitCode {
    let wanted = match wanted(env::args().skip(1)) {
        Ok(wanted) => wanted,
        Err(mistake) => {
            eprintln!("second: {mistake}\n{USAGE}");
            return ExitCode::from(2);
        }
    };
    match compare(&wanted) {
        Ok(inputs) => {
            println!("second: {inputs} inputs compared, no difference");
            ExitCode::SUCCESS
        }
        Err(report) => {
            println!("{}\nsecond: FAILED", report.trim_end());
            ExitCode::FAILURE
        }
    }
}
