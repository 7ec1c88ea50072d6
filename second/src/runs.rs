//! Whole runs of a program over files of records: what it writes is held against what this program writes by itself,
//! to the last byte.

use crate::common::*;
use crate::operations::{chain, check};
use crate::record::Record;
use crate::tally::{Tally, Wanted};
use std::io::Write;
use std::process::{Command, Stdio};
use std::thread;

/// A program that writes something for each record of its standard input, by the record's chain.
pub struct Program {
    pub name: &'static str,
    pub files: u64,
    pub path: String,
    /// What it writes for the record, which is number `number` from 1.
    pub own: fn(number: usize, record: &Record, answer: &Answer) -> Vec<u8>,
    /// Where the two differ, for the eye, if not only in length.
    pub apart: fn(own: &[u8], written: &[u8]) -> Option<String>,
}

/// Above what one read of the program takes, so that records straddle reads.
const MOST_RECORDS: usize = 700;

const SHORT: Refused = Refused::plain(9);
const ENDS_EARLY: &str = "No. 9";

impl Program {
    /// An answer and each refusal that a record can get, and those that it can get at 2^32; at the end of a file also
    /// a part of a record.
    pub fn wanted(&self) -> Wanted {
        let alone = [1, 2, 3, 4, 5].map(Refused::plain).to_vec();
        Wanted { alone, kinds: vec![ENDS_EARLY], at_2_32: Some(Vec::new()), ..Wanted::default() }
    }

    /// Of one file; its records are counted as inputs.
    pub fn compare(&self, seed: u64, index: u64, tally: &mut Tally) -> Result<(), String> {
        let file = file(index, &mut Random::for_input(seed, self.name, index));
        let own = self.own(&file, tally);
        let written = written(&self.path, file).map_err(|what| format!("{}: {what}", self.path))?;
        if own == written {
            return Ok(());
        }
        let lengths =
            format!("  own:     {} bytes\n  program: {} bytes, one begins as the other", own.len(), written.len());
        let what = (self.apart)(&own, &written).unwrap_or(lengths);
        Err(format!("DIFFERENCE in {}, seed {seed}, file {index}\n{what}", self.name))
    }

    fn own(&self, file: &[u8], tally: &mut Tally) -> Vec<u8> {
        let mut output = Vec::new();
        for (number, bytes) in (1..).zip(file.chunks(BYTES)) {
            let record = Record::read_padded(bytes);
            let asked = Asked::one(record.modulus, record.f.clone()).words(vec![0; WORDS]);
            let answer = match bytes.len() < BYTES {
                true => Operation::Chain.refused(SHORT, &asked),
                false => chain::own(&asked).answer,
            };
            let kinds = Vec::from_iter((answer.refused == SHORT).then_some(ENDS_EARLY));
            tally.count(Refused::plain(answer.refused.number), &[], &kinds, asked.at_2_32());
            output.extend((self.own)(number, &record, &answer));
        }
        output
    }
}

/// The first has no bytes at all; many end in the middle of a record.
fn file(index: u64, random: &mut Random) -> Vec<u8> {
    let records = match index {
        0 => 0,
        1 => 1,
        _ => random.between(1, MOST_RECORDS),
    };
    let mut file = Vec::new();
    for _ in 0..records {
        file.extend(record(random));
    }
    let cut = random.between(0, BYTES - 1);
    if random.once_in(2) {
        file.truncate(file.len().saturating_sub(cut));
    }
    file
}

/// A record as the check or the chain is given it.
fn record(random: &mut Random) -> Vec<u8> {
    let index = random.below(100_000);
    if random.once_in(3) {
        let mut bytes = check::input(index, random);
        bytes.resize(BYTES, 0);
        return bytes;
    }
    let asked = chain::input(index, random);
    Record { modulus: asked.m, f: asked.first().clone() }.bytes()
}

/// What the program writes. The file is written from a thread: both pipes are small, and the program prints before it
/// has read everything.
fn written(program: &str, file: Vec<u8>) -> Result<Vec<u8>, String> {
    let spawned = Command::new(program).stdin(Stdio::piped()).stdout(Stdio::piped()).spawn();
    let mut child = spawned.map_err(|error| error.to_string())?;
    let mut input = child.stdin.take().expect("standard input is a pipe");
    let writer = thread::spawn(move || input.write_all(&file));
    let output = child.wait_with_output().map_err(|error| error.to_string())?;
    let wrote = writer.join().expect("the writer only writes");
    wrote.map_err(|error| format!("the file was not read to its end: {error}"))?;
    match output.status.success() {
        true => Ok(output.stdout),
        false => Err(output.status.to_string()),
    }
}
