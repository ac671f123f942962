//! Times the proved functions beside plain Rust, in the same run and on the same input: many short rounds, one side
//! right after the other, and of those the median.

mod banks;

pub use banks::banks;

use crate::gen::{self, Kind};
use crate::rng::Rng;
use crate::simulator::banks::{Asked, Banks};
use crate::simulator::row::{Call, CALLS};
use crate::simulator::REFERENCES;
use crate::subject::{Answer, Counts, Rows, Sessions};
use std::hint::black_box;
use std::time::Instant;

const ROUNDS: usize = 603;
const WARM_UP: usize = 10;
const LIMIT: usize = 64;
const SEED: u64 = 1970;

/// One line of the table: nanoseconds for each unit of work on both sides, and the ratio that may not be passed.
pub struct Line {
    pub work: String,
    pub proved: f64,
    pub plain: f64,
    pub ratio: f64,
    pub bar: f64,
}

fn nanoseconds(work: &mut dyn FnMut()) -> f64 {
    let began = Instant::now();
    work();
    began.elapsed().as_nanos() as f64
}

fn median(mut numbers: Vec<f64>) -> f64 {
    numbers.sort_by(f64::total_cmp);
    numbers[numbers.len() / 2]
}

fn race(work: String, bar: f64, units: usize, proved: &mut dyn FnMut(), plain: &mut dyn FnMut()) -> Line {
    race_timed(work, bar, units, &mut || nanoseconds(proved), &mut || nanoseconds(plain))
}

/// What takes the nanoseconds of its round itself, and so leaves out what it prepares.
type Timed<'a> = &'a mut dyn FnMut() -> f64;

fn race_timed(work: String, bar: f64, units: usize, proved: Timed, plain: Timed) -> Line {
    let (mut ours, mut theirs, mut ratios) = (Vec::new(), Vec::new(), Vec::new());
    // one of each side, one right after the other
    let mut round = || (proved(), plain());
    for _ in 0..WARM_UP {
        round();
    }
    for _ in 0..ROUNDS {
        let (a, b) = round();
        ours.push(a / units as f64);
        theirs.push(b / units as f64);
        ratios.push(a / b);
    }
    Line { work, proved: median(ours), plain: median(theirs), ratio: median(ratios), bar }
}

/// The five kinds of trace of the whole-trace table.
fn traces() -> Vec<(&'static str, Vec<u16>)> {
    let kinds = [
        ("uniform over 1,000 pages", Kind::Uniform, 1000),
        ("Zipf over 1,000 pages", Kind::Zipf, 1000),
        ("a loop of 100 pages", Kind::Loop, 990),
        ("a scan of 1,000 pages", Kind::Scan, 1000),
        ("strong locality", Kind::Locality, 1000),
    ];
    let make = |(name, kind, pages)| {
        let mut rng = Rng::of_case(SEED, name, 0);
        (name, gen::trace(&mut rng, kind, REFERENCES, pages))
    };
    kinds.into_iter().map(make).collect()
}

pub fn whole_traces<A: Counts, B: Counts>() -> Vec<Line> {
    let mut lines = Vec::new();
    for (policy, name) in ["LRU", "LFU", "OPT"].into_iter().enumerate() {
        for (kind, trace) in traces() {
            let (mut ours, mut theirs) = ([0; LIMIT], [0; LIMIT]);
            let mut a = || A::count(black_box(&trace), policy as u32, LIMIT, black_box(&mut ours)).unwrap();
            let mut b = || B::count(black_box(&trace), policy as u32, LIMIT, black_box(&mut theirs)).unwrap();
            lines.push(race(format!("whole trace, {name}, {kind}"), 1.2, trace.len(), &mut a, &mut b));
            assert_eq!(ours, theirs, "the two sides differ on {name}, {kind}");
        }
    }
    lines
}

/// Filling a hit table: what a call on a trace of no references takes at the limit, less what it takes at capacity 1.
pub fn tables<A: Counts, B: Counts>() -> Vec<Line> {
    let mut a = || empty_traces::<A>(LIMIT) - empty_traces::<A>(1);
    let mut b = || empty_traces::<B>(LIMIT) - empty_traces::<B>(1);
    vec![race_timed(format!("filling a hit table of {LIMIT}"), 1.2, TABLES, &mut a, &mut b)]
}

const TABLES: usize = 500;

fn empty_traces<C: Counts>(k: usize) -> f64 {
    let mut table = [0; LIMIT];
    nanoseconds(&mut || {
        for _ in 0..TABLES {
            C::count(black_box(&[]), 0, k, black_box(&mut table)).unwrap();
        }
    })
}

/// A reference to a session that is full of pages: each round is a session's 4,096 references, its start not counted in
/// the units but in the time on both sides.
pub fn sessions<A: Sessions, B: Sessions>() -> Vec<Line> {
    let mut lines = Vec::new();
    for (policy, name) in ["LRU", "LFU"].into_iter().enumerate() {
        for (kind, trace) in traces() {
            let mut a = || drop(references::<A>(policy as u32, &trace));
            let mut b = || drop(references::<B>(policy as u32, &trace));
            lines.push(race(format!("session's reference, {name}, {kind}"), 2.0, trace.len(), &mut a, &mut b));
        }
    }
    for (policy, name) in ["LRU", "LFU"].into_iter().enumerate() {
        let (_, trace) = traces().swap_remove(0);
        let (ours, theirs) = (references::<A>(policy as u32, &trace), references::<B>(policy as u32, &trace));
        let work = format!("the test of a session, {name}");
        lines.push(test(&work, PAIRWISE, &ours, &theirs, A::sound, B::sound));
    }
    lines
}

/// The library looks for a page that stands twice pair by pair; plain Rust marks pages in a table of its own.
const PAIRWISE: f64 = 15.0;

fn references<S: Sessions>(policy: u32, trace: &[u16]) -> S {
    let mut session = S::start(policy, LIMIT).unwrap();
    let mut sum = 0;
    for &page in black_box(trace) {
        sum += session.reference(page.into()).unwrap();
    }
    black_box(sum);
    session
}

/// The calls that a working row gets: mostly touches, a put and a drop now and then, transfers.
fn any_call(rng: &mut Rng) -> (Call, u32) {
    (rng.pick_by(&CALLS, &[10, 60, 10, 11, 9]), rng.below(40) as u32)
}

/// Calls that are drawn so, nearly all of them accepted: of the refused ones one in fifty is kept.
fn mixed<T: Copy + Into<Asked>>(name: &str, drawn: fn(&mut Rng) -> T) -> Vec<T> {
    let mut rng = Rng::of_case(SEED, name, 0);
    let mut banks = Banks::fresh();
    let mut calls = Vec::new();
    while calls.len() < REFERENCES {
        let call = drawn(&mut rng);
        if banks.faults(call.into()).is_empty() || rng.below(50) == 0 {
            let _ = banks.ask(call.into());
            calls.push(call);
        }
    }
    calls
}

pub fn rows<A: Rows, B: Rows>() -> Vec<Line> {
    let calls = mixed("calls", any_call);
    let mut a = || drop(black_box(after(black_box(&calls), call::<A>)));
    let mut b = || drop(black_box(after(black_box(&calls), call::<B>)));
    let moved = race("row call, a mix of all five".to_string(), 2.0, calls.len(), &mut a, &mut b);
    let (ours, theirs) = (after(&calls, call::<A>), after(&calls, call::<B>));
    let mut a = || victims(&ours);
    let mut b = || victims(&theirs);
    let chosen = race("row call, victim".to_string(), 2.0, VICTIMS, &mut a, &mut b);
    vec![moved, chosen, test("the test of a row", 2.0, &ours, &theirs, A::sound, B::sound)]
}

/// The test of all that stands in a memory, by itself.
fn test<A, B>(work: &str, bar: f64, ours: &A, theirs: &B, tests_a: fn(&A) -> bool, tests_b: fn(&B) -> bool) -> Line {
    assert!(tests_a(ours) && tests_b(theirs), "what is tested is sound");
    let mut a = || tests(ours, tests_a);
    let mut b = || tests(theirs, tests_b);
    race(work.to_string(), bar, TESTS, &mut a, &mut b)
}

const TESTS: usize = 500;

fn tests<T>(memory: &T, test: fn(&T) -> bool) {
    for _ in 0..TESTS {
        black_box(test(black_box(memory)));
    }
}

#[inline]
fn call<R: Rows>(row: &mut R, (call, frame): (Call, u32)) -> Answer {
    row.call(call, frame)
}

/// A fresh row after these calls.
fn after<R: Rows, T: Copy>(calls: &[T], ask: impl Fn(&mut R, T) -> Answer) -> R {
    let mut row = R::fresh();
    for &call in calls {
        let _ = black_box(ask(&mut row, call));
    }
    row
}

const VICTIMS: usize = 1000;

fn victims<R: Rows>(row: &R) {
    for _ in 0..VICTIMS {
        let _ = black_box(black_box(row).victim());
    }
}

/// The lines as a table in Markdown.
pub fn table(lines: &[Line]) -> String {
    let mut text =
        String::from("| work | proved, ns | plain Rust, ns | ratio | bar | |\n|---|---:|---:|---:|---:|---|\n");
    for line in lines {
        let verdict = if line.ratio <= line.bar { "within" } else { "MISSED" };
        let Line { work, proved, plain, ratio, bar } = line;
        text += &format!("| {work} | {proved:.1} | {plain:.1} | {ratio:.2} | {bar:.1} | {verdict} |\n");
    }
    text
}
