//! Records per second of the proved program `list` and of a plain Rust listing by the same method, then of `sheets` and `list`:
//! all as programs that read a file and write another one.

use crate::binomial::binomials;
use crate::desk::{Polynomial, BYTES, LIMIT, TERMS};
use crate::modulus::{invert, modulus, Below, Modulus, Words};
use crate::plain::{accepted, check, degree, split_by};
use crate::timing::{head, row, Random};
use std::fs::{self, File};
use std::io::{Read, Write};
use std::path::Path;
use std::process::{Command, Stdio};
use std::time::Instant;

const RUNS: usize = 6;

/// The degrees of the chain's parts, left to right, and the tries. There is none if n and the modulus share a factor.
fn chain<M: Modulus>(m: M, f: &Polynomial, n: usize, table: &[u64]) -> Option<(Vec<usize>, usize)> {
    let v = invert(n as u64, m.number())?;
    let mut tries = 0;
    for s in 2..=n / 2 {
        if n % s == 0 {
            tries += 1;
            if let Some((g, _)) = split_by(f, n, s, v, table, m) {
                let (mut parts, more) = chain(m, &g, n / s, table)?;
                parts.push(s);
                return Some((parts, tries + more));
            }
        }
    }
    Some((vec![n], tries))
}

fn accepted_line(m: u32, f: &Polynomial, n: usize, number: usize, table: &[u64], out: &mut Vec<u8>) {
    let chain = match m {
        0 => chain(Words, f, n, table),
        _ => chain(Below(m as u64), f, n, table),
    };
    let Some((parts, tries)) = chain else {
        writeln!(out, "{number} 5").unwrap();
        return;
    };
    let price: usize = parts.iter().map(|d| d - 1).sum();
    write!(out, "{number} 0 {n} {} {tries} {price}", parts.len()).unwrap();
    for d in parts {
        write!(out, " {d}").unwrap();
    }
    out.push(b'\n');
}

fn line(record: &[u8], number: usize, table: &[u64], out: &mut Vec<u8>) {
    if record.len() < BYTES {
        writeln!(out, "{number} 9").unwrap();
        return;
    }
    let word = |i: usize| u32::from_le_bytes(record[4 * i..4 * i + 4].try_into().unwrap());
    let m = word(0);
    let mut f = [0; TERMS];
    for (i, c) in f.iter_mut().enumerate() {
        *c = word(i + 1);
    }
    match check(m, &f) {
        Ok(n) => accepted_line(m, &f, n, number, table, out),
        Err(refused) => writeln!(out, "{number} {refused}").unwrap(),
    }
}

/// The plain listing as a program: standard input to standard output.
pub fn plain() {
    let table = binomials();
    let mut input = std::io::stdin().lock();
    let mut output = std::io::stdout().lock();
    let (mut number, mut block) = (0, vec![0u8; 64_000 / BYTES * BYTES]);
    loop {
        let mut filled = 0;
        while filled < block.len() {
            match input.read(&mut block[filled..]) {
                Ok(0) | Err(_) => break,
                Ok(n) => filled += n,
            }
        }
        let mut out = Vec::with_capacity(1 << 14);
        for record in block[..filled].chunks(BYTES) {
            number += 1;
            line(record, number, &table, &mut out);
        }
        if output.write_all(&out).is_err() || filled < block.len() {
            return;
        }
    }
}

fn record(m: u32, f: &Polynomial) -> Vec<u8> {
    std::iter::once(&m).chain(f).flat_map(|w| w.to_le_bytes()).collect()
}

fn monic(random: &mut Random, m: u32, n: usize, constant: bool) -> Polynomial {
    let mut f = [0; TERMS];
    for c in f.iter_mut().take(n).skip(usize::from(!constant)) {
        *c = (random.next() % modulus(m)) as u32;
    }
    f[n] = 1;
    f
}

/// g(h) by Horner's rule.
fn compose(m: u32, g: &Polynomial, h: &Polynomial) -> Polynomial {
    let (m, s) = (modulus(m), degree(h));
    let mut f = [0u64; TERMS];
    for i in (0..=degree(g)).rev() {
        let mut next = [0u64; TERMS];
        for (a, &x) in f.iter().enumerate().filter(|(_, &x)| x != 0) {
            for b in 0..=s {
                next[a + b] = (next[a + b] + x * h[b] as u64) % m;
            }
        }
        next[0] = (next[0] + g[i] as u64) % m;
        f = next;
    }
    f.map(|x| x as u32)
}

/// A chain of these degrees, left to right.
pub fn planted(random: &mut Random, m: u32, degrees: &[usize]) -> Polynomial {
    degrees[1..].iter().fold(monic(random, m, degrees[0], true), |f, &d| {
        let h = monic(random, m, d, false);
        compose(m, &f, &h)
    })
}

const CHAINS: [&[usize]; 6] = [&[2, 3, 3, 7], &[2, 2, 2, 2, 2, 2], &[3, 5, 7], &[11, 11], &[2, 61], &[5, 5, 5]];

/// For 2^32, where only an odd degree gets a chain.
const ODD_CHAINS: [&[usize]; 6] = [&[3, 3, 3, 3], &[3, 3, 13], &[3, 5, 7], &[11, 11], &[3, 41], &[5, 5, 5]];

fn indecomposable(random: &mut Random, m: u32, n: usize) -> Vec<u8> {
    (0..2000).flat_map(|_| record(m, &monic(random, m, n, true))).collect()
}

fn planted_chains(random: &mut Random, m: u32, chains: &[&[usize]]) -> Vec<u8> {
    (0..4000).flat_map(|i| record(m, &planted(random, m, chains[i % chains.len()]))).collect()
}

/// The files that are listed: what is in each, its bytes, and how many records that is.
pub fn files() -> Vec<(String, Vec<u8>, usize)> {
    let (m, random) = (2147483647, &mut Random(4));
    let mut all = Vec::new();
    for n in [LIMIT, 120, 64] {
        let label = format!("indecomposable, degree {n}");
        all.push((label, indecomposable(random, m, n), 2000));
    }
    all.push(("planted chains".to_string(), planted_chains(random, m, &CHAINS), 4000));
    let refused = (0..200000)
        .flat_map(|i| {
            let mut f = monic(random, m, LIMIT, true);
            match i % 3 {
                0 => f[(i * 7) % TERMS] = m,
                1 => f[LIMIT] = 2,
                _ => (),
            }
            record(if i % 3 == 2 { 1 } else { m }, &f)
        })
        .collect();
    all.push(("refused by 1, 2 and 4".to_string(), refused, 200000));
    let mixed = (0..6000)
        .flat_map(|i| match i % 3 {
            0 => record(m, &monic(random, m, 2 + i % (LIMIT - 1), true)),
            1 => record(1009, &planted(random, 1009, CHAINS[i % 6])),
            _ => record(1, &[0; TERMS]),
        })
        .collect();
    all.push(("mixed".to_string(), mixed, 6000));
    for n in [125, 105, 63] {
        let label = format!("indecomposable, degree {n}, m = 2^32");
        all.push((label, indecomposable(random, 0, n), 2000));
    }
    let chains = planted_chains(random, 0, &ODD_CHAINS);
    all.push(("planted chains, m = 2^32".to_string(), chains, 4000));
    let refused = (0..200000)
        .flat_map(|i| match i % 3 {
            0 => record(0, &[0; TERMS]),
            1 => {
                let mut f = monic(random, 0, LIMIT, true);
                f[LIMIT] = 2;
                record(0, &f)
            }
            _ => record(0, &monic(random, 0, LIMIT, true)),
        })
        .collect();
    all.push(("refused by 3, 4 and 5, m = 2^32".to_string(), refused, 200000));
    all
}

/// What a program writes for a file.
fn written(program: &mut Command, file: &Path) -> Vec<u8> {
    let program = program.stdin(File::open(file).unwrap());
    let program = program.stdout(Stdio::piped()).stderr(Stdio::inherit());
    program.output().unwrap().stdout
}

/// The least seconds of each program from the file to another one. Each turn begins with the next of them: else each may stay on
/// a core of its own, and one of the cores may be the slower.
fn by_turns(programs: &mut [Command], file: &Path) -> Vec<f64> {
    let sides = programs.len();
    let mut best = vec![f64::MAX; sides];
    for i in (0..RUNS).flat_map(|run| (0..sides).map(move |i| (run + i) % sides)) {
        let output = File::create(file.with_extension("written")).unwrap();
        let program = programs[i].stdin(File::open(file).unwrap()).stdout(output);
        let start = Instant::now();
        let status = program.status().unwrap();
        assert!(status.success(), "{program:?}: {status}");
        best[i] = best[i].min(start.elapsed().as_secs_f64());
    }
    best
}

/// That all programs write the same for the file.
fn compare(label: &str, programs: &mut [Command], file: &Path) {
    let (first, others) = programs.split_first_mut().unwrap();
    let listing = written(first, file);
    assert!(!listing.is_empty());
    for program in others {
        assert!(written(program, file) == listing, "{label}: the listings of {first:?} and {program:?} differ");
    }
}

/// Prints the records per second of the programs on each file and their ratios, the best of some passes over all files; where
/// they must write the same, that is compared first. The records per second, with what is in the file.
pub fn beside(passes: usize, heads: &[&str], programs: &mut [Command], same: bool) -> Vec<(String, Vec<f64>)> {
    let folder = Path::new("target/bench-records");
    fs::create_dir_all(folder).unwrap();
    let (file, files) = (folder.join("records"), files());
    let mut best = vec![vec![0.0f64; programs.len()]; files.len()];
    for _ in 0..passes {
        for ((label, bytes, count), best) in files.iter().zip(&mut best) {
            fs::write(&file, bytes).unwrap();
            if same {
                compare(label, programs, &file);
            }
            let seconds = by_turns(programs, &file);
            for (best, seconds) in best.iter_mut().zip(seconds) {
                *best = best.max(*count as f64 / seconds);
            }
        }
    }
    println!();
    head("records per second", heads);
    let labels = files.iter().map(|(label, _, _)| label.to_string());
    let rows: Vec<_> = labels.zip(best).collect();
    for (label, rates) in &rows {
        row(label, rates, 0);
    }
    rows
}

pub fn run() {
    assert!(accepted(7, &monic(&mut Random(9), 7, 4, true)));
    let list = || Command::new("crates/list/out/list");
    let mut plain = Command::new(std::env::current_exe().unwrap());
    plain.arg("--list");
    beside(3, &["list", "plain Rust"], &mut [list(), plain], true);
    let sheets = Command::new("crates/sheets/out/sheets");
    beside(1, &["sheets", "list"], &mut [sheets, list()], false);
}
