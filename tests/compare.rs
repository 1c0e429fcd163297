//! Compares the archive with up to three judges, engines written from the definitions alone.
//!
//! The judges (`literal`, `by_rings`, `plain`) find rings, families and classes in different ways, and must agree with each
//! other. They share the reading of the input and the bytes of the rows (`compound`), and the last two of them share
//! elimination (`span`). Then the archive is called in all its forms with many buffer sizes, and every number, every byte of
//! both buffers and every byte around them must be as the listing says. The last line is `compared=CALLS
//! different=DIFFERENCES`; the exit status is 0 only if nothing differs.

mod by_rings;
mod calls;
mod cases;
mod compound;
mod crash;
mod inputs;
mod judges;
mod literal;
mod molecules;
mod plain;
mod regular;
// The calls that return a `Result` serve other programs.
#[allow(dead_code)]
#[path = "../hatch/rings.rs"]
mod rings;
mod span;

use calls::Calls;
use cases::{Case, Cases, Rooms};
use judges::{judge, Judges};
use std::sync::atomic::{AtomicUsize, Ordering};
use std::sync::Mutex;
use std::time::{Duration, Instant};

/// What was done for a group of inputs.
#[derive(Clone, Default)]
struct Tally {
    inputs: usize,
    refused: usize,
    calls: usize,
    judges: Judges,
}

impl Tally {
    fn add(&mut self, other: &Tally) {
        self.inputs += other.inputs;
        self.refused += other.refused;
        self.calls += other.calls;
        self.judges.literal += other.judges.literal;
        self.judges.by_bases += other.judges.by_bases;
        self.judges.by_rings += other.judges.by_rings;
    }
}

/// All calls on one input, counted in the tally; the first thing wrong.
fn run(case: &Case, tally: &mut Tally) -> Result<(), String> {
    tally.inputs += 1;
    let judged = judge(&case.input, &mut tally.judges)?;
    tally.refused += judged.is_err() as usize;
    let mut calls = Calls::new(&case.input, &judged);
    let result = match (&judged, case.rooms) {
        (Err(_), _) => calls.with_rooms(&calls::when_refused()),
        (Ok(l), Rooms::Around) => calls.with_rooms(&calls::around(l)).and_then(|_| calls.of_rows(l)),
        (Ok(l), Rooms::All) => calls.with_rooms(&calls::all(l)).and_then(|_| calls.of_rows(l)),
    };
    tally.calls += calls.made();
    result
}

/// What the workers share: the cases and which are still to be taken up, and what was found.
struct Work {
    cases: Cases,
    /// The one input that is taken up, if not all are.
    only: Option<usize>,
    next: AtomicUsize,
    /// No input is taken up after this.
    deadline: Option<Instant>,
    tallies: Mutex<Vec<Tally>>,
    /// The numbers of inputs, and what is wrong with the calls on them.
    wrong: Mutex<Vec<(usize, String)>>,
}

impl Work {
    fn new(cases: Cases, only: Option<usize>, deadline: Option<Instant>) -> Work {
        let tallies = Mutex::new(vec![Tally::default(); cases.groups.len()]);
        Work { cases, only, next: AtomicUsize::new(only.unwrap_or(0)), deadline, tallies, wrong: Mutex::default() }
    }

    /// The number of the next input to take up.
    fn next(&self) -> Option<usize> {
        let i = self.next.fetch_add(1, Ordering::Relaxed);
        let end = self.only.map_or(self.cases.list.len(), |only| only + 1);
        (i < end && !self.deadline.is_some_and(|deadline| Instant::now() > deadline)).then_some(i)
    }

    /// One worker: takes up inputs until there is none left.
    fn work(&self) {
        while let Some(i) = self.next() {
            let case = &self.cases.list[i];
            let mut tally = Tally::default();
            crash::in_hand(i);
            if let Err(e) = run(case, &mut tally) {
                self.wrong.lock().unwrap().push((i, e));
            }
            self.tallies.lock().unwrap()[case.group].add(&tally);
        }
    }
}

fn print_table(groups: &[&str], tallies: &[Tally]) {
    println!("{:42}{:>9}{:>9}{:>9}{:>9}{:>9}{:>9}", "inputs", "number", "refused", "literal", "bases", "by rings", "calls");
    for (name, t) in groups.iter().zip(tallies) {
        let j = &t.judges;
        println!("{:42}{:>9}{:>9}{:>9}{:>9}{:>9}{:>9}", name, t.inputs, t.refused, j.literal, j.by_bases, j.by_rings, t.calls);
    }
}

/// Prints the table, the first difference if there is one, and the last line; tells whether nothing differs.
fn report(work: Work) -> bool {
    let Work { cases: Cases { groups, list }, only, tallies, wrong, .. } = work;
    let tallies = tallies.into_inner().unwrap();
    print_table(&groups, &tallies);
    let mut wrong = wrong.into_inner().unwrap();
    wrong.sort();
    if let Some((i, e)) = wrong.first() {
        let Case { group, input, .. } = &list[*i];
        println!("\nthe first difference, in '{}', input '{}':", groups[*group], input.name);
        println!("n = {}, bond bytes {:?}", input.n, input.bytes);
        println!("{}\n", e);
    }
    let taken: usize = tallies.iter().map(|t| t.inputs).sum();
    if only.is_none() && taken < list.len() {
        println!("cut short: {} of {} inputs taken", taken, list.len());
    }
    println!("compared={} different={}", tallies.iter().map(|t| t.calls).sum::<usize>(), wrong.len());
    wrong.is_empty()
}

fn main() {
    if let Err(e) = judges::check_bench_set() {
        println!("the scope document and the judges differ: {}", e);
        std::process::exit(1);
    }
    let cases = Cases::new();
    // With an argument only the input of that number is taken, and shown.
    let only: Option<usize> = std::env::args().nth(1).and_then(|word| word.parse().ok());
    if let Some(Case { group, input, .. }) = only.and_then(|i| cases.list.get(i)) {
        println!("{}, input '{}': n = {}, bond bytes {:?}", cases.groups[*group], input.name, input.n, input.bytes);
    }
    // COMPARE_SECONDS bounds the run.
    let seconds = std::env::var("COMPARE_SECONDS").ok().and_then(|word| word.parse().ok());
    let work = Work::new(cases, only, seconds.map(|seconds| Instant::now() + Duration::from_secs(seconds)));
    crash::watch();
    let workers = std::thread::available_parallelism().map_or(2, |n| n.get());
    std::thread::scope(|scope| {
        for _ in 0..workers {
            scope.spawn(|| work.work());
        }
    });
    let same = report(work);
    std::process::exit(!same as i32);
}
