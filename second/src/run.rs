//! A run over all entries, on several threads. An input depends on the seed, the entry and
//! its number only, and what was met is put together in the order of the entries: the output does not depend on the
//! threads.

use crate::entry::Entry;
use crate::runs::Program;
use crate::tally::Tally;
use std::collections::BTreeMap;
use std::fs;
use std::ops::Range;
use std::sync::atomic::{AtomicBool, AtomicUsize, Ordering::Relaxed};
use std::sync::mpsc;
use std::thread;
use std::time::Instant;

/// From this many inputs on, all that can be met has to have been met.
const ENOUGH: u64 = 10_000;

/// So many inputs each entry gets then, whatever its share: they suffice to meet everything.
const FEWEST: u64 = 3_000;

/// What is compared: an entry, or whole runs of a program.
pub enum Compared {
    Entry(Entry),
    Runs(Program),
}

/// One of them, and what is to be done of it in this run.
pub struct Share {
    pub of: Compared,
    pub inputs: u64,
    /// Whether all has to be met.
    pub complete: bool,
}

/// The inputs of a usual run of these entries.
pub fn usual(entries: &[Entry]) -> u64 {
    entries.iter().map(|entry| (entry.usual)()).sum()
}

/// Of `inputs` over all entries what each has to do. A list gives no more inputs than it has; what it leaves of its
/// portion the others get.
pub fn shares(entries: &[Entry], inputs: u64) -> Vec<Share> {
    let portion = |all: u64, usual: u64, of: u64| (u128::from(all) * u128::from(usual)).div_ceil(u128::from(of)) as u64;
    let listed = |entry: &Entry| portion(inputs, (entry.usual)(), usual(entries)).min((entry.usual)());
    let (lists, others): (Vec<Entry>, Vec<Entry>) = entries.iter().partition(|entry| entry.is_list);
    let rest = inputs.saturating_sub(lists.iter().map(listed).sum());
    let share = |&entry: &Entry| {
        let most = if entry.is_list { (entry.usual)() } else { u64::MAX };
        let own = if entry.is_list { listed(&entry) } else { portion(rest, (entry.usual)(), usual(&others)) };
        let complete = inputs >= ENOUGH;
        let inputs = if complete { own.max(FEWEST) } else { own };
        Share { of: Compared::Entry(entry), inputs: inputs.min(most), complete }
    };
    entries.iter().map(share).collect()
}

impl Share {
    pub fn runs(program: Program) -> Share {
        Share { inputs: program.files, of: Compared::Runs(program), complete: true }
    }

    fn compare(&self, seed: u64, inputs: Range<u64>) -> Result<Tally, String> {
        let mut tally = Tally::default();
        for index in inputs {
            match &self.of {
                Compared::Entry(entry) => entry.compare(seed, index, &mut tally)?,
                Compared::Runs(program) => program.compare(seed, index, &mut tally)?,
            }
        }
        Ok(tally)
    }

    /// Says what was met; an error is about what was not and had to be.
    fn conclude(&self, tally: &Tally) -> Result<(), String> {
        let (name, wanted) = match &self.of {
            Compared::Entry(entry) => (entry.name, (entry.wanted)()),
            Compared::Runs(program) => (program.name, program.wanted()),
        };
        print!("{}", tally.report(name, &wanted));
        let missing = tally.never_met(&wanted);
        match self.complete && !missing.is_empty() {
            true => Err(format!("{name}: never met {}", missing.join(", "))),
            false => Ok(()),
        }
    }
}

/// Inputs that one thread goes through at a time: few enough to end together, and enough to be worth the way.
const PIECE: u64 = 500;

/// As many as the machine has cores. Under an emulator it is one: with a second thread every access to memory has to be ordered
/// for both, which takes three times as long.
pub fn usual_threads() -> usize {
    let is_emulated = fs::read_to_string("/proc/cpuinfo").is_ok_and(|text| !text.contains("vendor_id"));
    match is_emulated {
        true => 1,
        false => thread::available_parallelism().map_or(1, usize::from),
    }
}

/// Goes through all shares; gives the number of inputs.
pub fn run(shares: &[Share], seed: u64, threads: usize) -> Result<u64, String> {
    let cut = |(number, share): (usize, &Share)| {
        let size = if matches!(share.of, Compared::Runs(_)) { 1 } else { PIECE };
        let inputs = share.inputs;
        (0..inputs.max(1).div_ceil(size)).map(move |i| (number, i * size..inputs.min((i + 1) * size)))
    };
    let pieces: Vec<(usize, Range<u64>)> = shares.iter().enumerate().flat_map(cut).collect();
    let compared = |place: usize| {
        let (number, inputs) = &pieces[place];
        (place, shares[*number].compare(seed, inputs.clone()))
    };
    if threads == 1 {
        return gather(shares, &pieces, (0..pieces.len()).map(compared));
    }
    let (next, failed) = (AtomicUsize::new(0), AtomicBool::new(false));
    let (done, finished) = mpsc::channel();
    let work = |done: mpsc::Sender<_>| {
        // Pieces are begun in their order, and what is begun is ended: the first difference is always the same one.
        while !failed.load(Relaxed) {
            let place = next.fetch_add(1, Relaxed);
            if place >= pieces.len() {
                return;
            }
            let met = compared(place);
            failed.fetch_or(met.1.is_err(), Relaxed);
            if done.send(met).is_err() {
                return;
            }
        }
    };
    thread::scope(|scope| {
        for _ in 0..threads {
            let done = done.clone();
            scope.spawn(|| work(done));
        }
        drop(done);
        gather(shares, &pieces, finished.into_iter())
    })
}

/// Puts together what comes from the threads, in the order of the pieces.
fn gather(
    shares: &[Share],
    pieces: &[(usize, Range<u64>)],
    finished: impl Iterator<Item = (usize, Result<Tally, String>)>,
) -> Result<u64, String> {
    let started = Instant::now();
    let (mut waiting, mut place, mut inputs, mut said) = (BTreeMap::new(), 0, 0, 0);
    let mut tally = Tally::default();
    for (number, met) in finished {
        waiting.insert(number, met);
        while let Some(met) = waiting.remove(&place) {
            tally.add(met?);
            let share = pieces[place].0;
            place += 1;
            if pieces.get(place).is_none_or(|(next, _)| *next != share) {
                inputs += tally.inputs;
                shares[share].conclude(&std::mem::take(&mut tally))?;
            }
        }
        let seconds = started.elapsed().as_secs();
        if seconds > said + 1 {
            said = seconds;
            eprintln!("second: {} of {} pieces, {seconds} s", place + waiting.len(), pieces.len());
        }
    }
    assert!(place == pieces.len(), "a thread ended early");
    Ok(inputs)
}
