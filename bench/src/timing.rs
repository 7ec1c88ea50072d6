use std::hint::black_box;
use std::time::Instant;

const RUNS: usize = 600;

/// What is in the tables of single calls.
pub const CALLS: &str = "ns a call, the least of many short runs";

/// The line above a table: what is in it, and whose times stand side by side. A ratio is the first
/// side over the one that it stands after.
pub fn head(title: &str, sides: &[&str]) {
    print!("{title:<52}{:>12}", sides[0]);
    for side in &sides[1..] {
        print!("{side:>12}{:>8}", "ratio");
    }
    println!();
}

/// The line of a table.
pub fn row(label: &str, values: &[f64], decimals: usize) {
    let first = values[0];
    print!("{label:<52}{first:>12.decimals$}");
    for value in &values[1..] {
        print!("{value:>12.decimals$}{:>8.2}", first / value);
    }
    println!();
}

/// Nanoseconds a call in one short run.
fn run(calls: usize, f: &mut dyn FnMut(usize) -> u64) -> f64 {
    let start = Instant::now();
    let mut sum = 0u64;
    for i in 0..calls {
        sum = sum.wrapping_add(f(i));
    }
    black_box(sum);
    start.elapsed().as_nanos() as f64 / calls as f64
}

/// Compares the answers of all sides on all inputs, then takes their times.
///
/// The least of many short runs, the sides by turns, so that other work on the machine counts little and for all alike.
pub fn by_turns(label: &str, runs: usize, calls: usize, sides: &mut [&mut dyn FnMut(usize) -> u64]) -> Vec<f64> {
    for i in 0..calls {
        let answer = sides[0](i);
        for side in &mut sides[1..] {
            assert_eq!(answer, side(i), "{label}: input {i}");
        }
    }
    let mut least = vec![f64::MAX; sides.len()];
    for _ in 0..runs {
        for (least, side) in least.iter_mut().zip(&mut *sides) {
            *least = least.min(run(calls, side));
        }
    }
    least
}

/// Prints both times and their ratio.
pub fn beside(label: &str, calls: usize, desk: &mut dyn FnMut(usize) -> u64, plain: &mut dyn FnMut(usize) -> u64) {
    row(label, &by_turns(label, RUNS, calls, &mut [desk, plain]), 1);
}

/// How a label ends: the rows at 2^31 - 1 do not name their modulus.
pub fn at(m: u32) -> &'static str {
    if m == 0 {
        ", m = 2^32"
    } else {
        ""
    }
}

/// A small generator, so that every run has the same inputs.
pub struct Random(pub u64);

impl Random {
    pub fn next(&mut self) -> u64 {
        self.0 = self.0.wrapping_add(0x9e37_79b9_7f4a_7c15);
        let z = (self.0 ^ (self.0 >> 30)).wrapping_mul(0xbf58_476d_1ce4_e5b9);
        let z = (z ^ (z >> 27)).wrapping_mul(0x94d0_49bb_1331_11eb);
        z ^ (z >> 31)
    }
}
