//! The desk beside other checkouts of it, by turns: their shared libraries in one process, and their programs `list`.

use crate::compose::sum;
use crate::desk::{LeftPart, Quick, Split, TERMS};
use crate::listing;
use crate::quick;
use crate::split::{inputs, Input};
use crate::timing::{by_turns, head, row, CALLS};
use std::ffi::{c_char, c_int, c_void, CStr, CString};
use std::hint::black_box;
use std::process::Command;

const PASSES: usize = 5;
const RUNS: usize = 400;

extern "C" {
    fn dlopen(file: *const c_char, mode: c_int) -> *mut c_void;
    fn dlsym(library: *mut c_void, name: *const c_char) -> *mut c_void;
}

/// dlopen's mode: all symbols are looked up at once, and no other library sees them.
const NOW: c_int = 2;

/// The functions of one library that are timed.
struct Desk {
    name: String,
    split: Split,
    left_part: LeftPart,
    /// Before request No. 7 there was none.
    quick: Option<Quick>,
}

impl Desk {
    fn load(name: &str, file: &str) -> Desk {
        let path = CString::new(file).unwrap();
        let library = unsafe { dlopen(path.as_ptr(), NOW) };
        assert!(!library.is_null(), "{file}: no shared library");
        let find = |name: &CStr| unsafe { dlsym(library, name.as_ptr()) };
        let symbol = |name: &CStr| {
            let symbol = find(name);
            assert!(!symbol.is_null(), "{file}: no {name:?}");
            symbol
        };
        unsafe {
            Desk {
                name: name.to_string(),
                split: std::mem::transmute::<*mut c_void, Split>(symbol(c"desk_split")),
                left_part: std::mem::transmute::<*mut c_void, LeftPart>(symbol(c"desk_left_part")),
                quick: std::mem::transmute::<*mut c_void, Option<Quick>>(find(c"desk_quick")),
            }
        }
    }

    fn split(&self, input: &Input) -> u64 {
        input.split(self.split)
    }

    fn quick(&self, input: &Input) -> u64 {
        quick::sum(input.quick(self.quick.unwrap()))
    }

    /// The left part for the right part that the input was composed with.
    fn left_part(&self, input: &Input) -> u64 {
        let (mut g, h) = ([0; TERMS], input.right.as_ref().unwrap());
        let refused = unsafe { (self.left_part)(input.m, black_box(&input.f), h, &mut g) };
        assert!(h[0] != 0 && refused.number == 0);
        sum(&g)
    }
}

/// One row: its label, and what was measured of each side.
type Row = (String, Vec<f64>);

/// The times of one operation for an input.
fn times(desks: &[&Desk], operation: &str, input: &Input, call: fn(&Desk, &Input) -> u64) -> Vec<f64> {
    let mut calls: Vec<_> = desks.iter().map(|desk| |_| call(desk, input)).collect();
    let mut sides: Vec<_> = calls.iter_mut().map(|call| call as &mut dyn FnMut(usize) -> u64).collect();
    by_turns(&input.label(operation), RUNS, 20, &mut sides)
}

/// Prints the times of one operation for each input: the least of some passes over all of them, since the machine may be slow
/// for longer than a row takes.
fn rows(desks: &[&Desk], operation: &str, inputs: &[Input], call: fn(&Desk, &Input) -> u64) -> Vec<Row> {
    let mut least = vec![vec![f64::MAX; desks.len()]; inputs.len()];
    for _ in 0..PASSES {
        for (input, least) in inputs.iter().zip(&mut least) {
            let times = times(desks, operation, input, call);
            for (least, time) in least.iter_mut().zip(times) {
                *least = least.min(time);
            }
        }
    }
    let labels = inputs.iter().map(|input| input.label(operation));
    let rows: Vec<_> = labels.zip(least).collect();
    for (label, times) in &rows {
        row(label, times, 1);
    }
    rows
}

/// The quick answers of those that have them, in a table of their own.
fn quick_rows(desks: &[&Desk], pair: &[Input], none: &[Input]) {
    let asked: Vec<_> = desks.iter().filter(|d| d.quick.is_some()).copied().collect();
    if asked.len() < 2 {
        return;
    }
    println!();
    head(CALLS, &names(&asked));
    rows(&asked, "quick", none, Desk::quick);
    rows(&asked, "quick", pair, Desk::quick);
}

fn names<'a>(desks: &[&'a Desk]) -> Vec<&'a str> {
    desks.iter().map(|desk| desk.name.as_str()).collect()
}

/// The row with the highest ratio of the first side to another one.
fn highest(rows: &[Row], side: usize) -> (&str, f64) {
    let ratios = rows.iter().map(|(label, x)| (label.as_str(), x[0] / x[side]));
    ratios.max_by(|a, b| a.1.total_cmp(&b.1)).unwrap()
}

/// Prints the worst row of each group: of calls that with the longest time, of listings that with the fewest records per second.
fn worst(names: &[&str], calls: &[&[Row]], listings: &[Row]) {
    let slow: Vec<Row> =
        listings.iter().map(|(label, rates)| (label.clone(), rates.iter().map(|rate| 1.0 / rate).collect())).collect();
    for (side, name) in names.iter().enumerate().skip(1) {
        println!();
        println!("the worst of each, {} over {name}", names[0]);
        for (label, ratio) in calls.iter().map(|rows| highest(rows, side)) {
            println!("{label:<76}{ratio:>8.2}");
        }
        let (label, ratio) = highest(&slow, side);
        println!("{label:<76}{:>8.2}", 1.0 / ratio);
    }
}

/// Times the libraries and programs `list` of some checkouts, each given by its name and the two files, the newest first; ends
/// with the worst row of each group beside each of the others.
pub fn run(sides: &[&str]) {
    let desks: Vec<_> = sides.chunks(3).map(|side| Desk::load(side[0], side[1])).collect();
    let desks: Vec<_> = desks.iter().collect();
    let mut lists: Vec<_> = sides.chunks(3).map(|side| Command::new(side[2])).collect();
    let names = names(&desks);
    let (pair, none): (Vec<_>, Vec<_>) = inputs().into_iter().partition(|i| i.right.is_some());
    head(CALLS, &names);
    let splits = rows(&desks, "split", &none, Desk::split);
    let splits_with_pair = rows(&desks, "split", &pair, Desk::split);
    let left_parts = rows(&desks, "left part", &pair, Desk::left_part);
    quick_rows(&desks, &pair, &none);
    let listings = listing::beside(PASSES, &names, &mut lists, true);
    worst(&names, &[&splits, &splits_with_pair, &left_parts], &listings);
}
