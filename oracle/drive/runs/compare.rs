//! Compares runs: what is asked, in which order, and what came of it.
use super::made::{from_set, run_sets};
use super::model::*;
use super::random::{long, random, short, Length};
use super::sequence::by_sequences;
use super::*;
use crate::rng::Rng;
use crate::sets::sets;
use crate::sides::Side;
use std::collections::BTreeMap;
use std::sync::atomic::{AtomicUsize, Ordering};
use std::sync::Mutex;

/// Some of a set, in slots of a form.
#[derive(Clone, Copy)]
pub struct Slice {
    form: usize,
    set: usize,
    from: usize,
    to: usize,
    every: usize,
}

#[derive(Clone, Copy)]
enum Source {
    /// Calls of a set, as runs.
    Calls(Slice),
    Set(Slice),
    /// Random ones by a seed, so many.
    Short(u64, usize),
    Long(u64, usize),
}

/// Some runs of one kind, made when they are due.
#[derive(Clone, Copy)]
pub struct Job {
    kind: usize,
    source: Source,
}

/// So many runs at once, on short lines and on long ones.
const BATCH: usize = 2000;
const LONG_BATCH: usize = 20;

/// Of the sets of calls only each so-manieth is run: many differ in nothing but the index, which a run doesn't have.
const CALLS_EVERY: usize = 16;

impl Slice {
    fn runs(self, make: impl Fn(usize, usize) -> Run) -> Vec<Run> {
        (self.from..self.to).map(|k| make(self.form, k * self.every)).collect()
    }
}

impl Job {
    pub fn runs(self) -> Vec<Run> {
        let kind = self.kind;
        let some = |seed: u64, count: usize, length: Length| {
            let mut r = Rng::new(seed);
            (0..count).map(|_| random(&mut r, kind, length)).collect()
        };
        match self.source {
            Source::Calls(s) => s.runs(|form, number| from_set(kind, form, s.set, number)),
            Source::Set(s) => s.runs(|form, number| (run_sets(kind)[s.set].make)(kind, form, number)),
            Source::Short(seed, count) => some(seed, count, short),
            Source::Long(seed, count) => some(seed, count, long),
        }
    }
    /// Are there long lines? In the sets of calls there may be.
    fn is_long(self) -> bool {
        matches!(self.source, Source::Long(..) | Source::Calls(_))
    }
    pub fn way(self) -> Way {
        if self.is_long() {
            by_sequences
        } else {
            by_calls
        }
    }
}

/// Every so-manieth run of a set of so many.
fn slices(form: usize, set: usize, count: usize, every: usize) -> impl Iterator<Item = Slice> {
    let (count, step) = (count.div_ceil(every), BATCH / 4);
    (0..count).step_by(step).map(move |from| Slice { form, set, from, to: (from + step).min(count), every })
}

fn set_jobs(kind: usize, form: usize, every: usize, jobs: &mut Vec<Job>) {
    for (set, s) in run_sets(kind).iter().enumerate() {
        let of = |slice| Job { kind, source: Source::Set(slice) };
        jobs.extend(slices(form, set, s.count, every).map(of));
    }
    for (set, s) in sets(kind).iter().enumerate() {
        let of = |slice| Job { kind, source: Source::Calls(slice) };
        jobs.extend(slices(form, set, s.count, every * CALLS_EVERY).map(of));
    }
}

/// Jobs of so many random runs, shared by the kinds, made with the number of the job.
fn random_jobs(kinds: &[usize], count: usize, batch: usize, make: impl Fn(u64, usize) -> Source) -> Vec<Job> {
    let mut jobs = vec![];
    for k in 0..count.div_ceil(batch) {
        let source = make(k as u64, batch.min(count - k * batch));
        jobs.push(Job { kind: kinds[k % kinds.len()], source });
    }
    jobs
}

/// How much is to be compared.
#[derive(Clone, Copy)]
pub struct Amount {
    pub short: usize,
    pub long: usize,
    pub every: usize,
    pub seed: u64,
}

/// Every set in each form (of its runs each `every`-th), then random runs on long lines, then on short ones.
pub fn plan(kinds: &[usize], amount: Amount) -> Vec<Job> {
    let mut jobs = vec![];
    for &kind in kinds {
        FORMS.iter().for_each(|form| set_jobs(kind, *form, amount.every, &mut jobs));
    }
    let seed = move |k: u64, apart: u64| amount.seed.wrapping_mul(0x1_0000_0001).wrapping_add(k + apart);
    jobs.extend(random_jobs(kinds, amount.long, LONG_BATCH, |k, count| Source::Long(seed(k, 1 << 41), count)));
    jobs.extend(random_jobs(kinds, amount.short, BATCH, |k, count| Source::Short(seed(k, 1 << 40), count)));
    jobs
}

/// How often each type had each outcome, and how often each thing happened.
pub type Tally = BTreeMap<(u32, String), usize>;

/// Why a run was refused with 8 or 6, in words.
fn reason(run: &Run, e: &Expected) -> Option<&'static str> {
    let bad_count = !(1..=MOST).contains(&run.lens.len());
    match e.ran.refusal {
        8 if bad_count => Some("8 for the number of subtables"),
        8 if !run.adds_up() => Some("8 for the lengths"),
        8 => Some("8 for the places"),
        6 if kind_of(run.lookup_type).is_none() => Some("6 for the type"),
        6 if e.probed.bad[0] => Some("6 for the first subtable"),
        6 => Some("6 for a later subtable"),
        _ => None,
    }
}

/// What happened in a run, in words.
pub fn happenings(run: &Run, e: &Expected) -> Vec<&'static str> {
    let happened = all_happenings(run, e).into_iter().filter(|(is, _)| *is);
    happened.map(|(_, words)| words).chain(reason(run, e)).collect()
}

fn all_happenings(run: &Run, e: &Expected) -> [(bool, &'static str); 9] {
    let (s, stopped) = (&e.story, e.ran.refusal == 7);
    let begun = stopped || e.ran.refusal == 0;
    let seen = || (0..run.slots()).any(|i| run.is_seen(i));
    [
        (s.applied > 0, "a call applied"),
        (s.later > 0, "a later subtable won"),
        (s.jumps > 0, "jumped"),
        (s.warned > 0, "a decline's hazard"),
        (stopped && s.applied > 0, "stopped after a call that applied"),
        (stopped && s.late_warning, "stopped after a decline's hazard at the same slot"),
        (begun && run.line.is_empty(), "empty line"),
        (begun && !run.line.is_empty() && !seen(), "no slot seen"),
        (begun && run.places == run.exact_places(), "exact places"),
    ]
}

fn count(tally: &mut Tally, run: &Run, e: &Expected) {
    let lookup_type = kind_of(run.lookup_type).map_or(0, type_of);
    let mut add = |what: String, n: usize| *tally.entry((lookup_type, what)).or_default() += n;
    add(format!("= {}", e.ran.outcome()), 1);
    happenings(run, e).into_iter().for_each(|words| add(words.into(), 1));
    add("single calls".into(), e.story.calls);
}

/// What every worker has in common.
struct Shared<'a> {
    jobs: &'a [Job],
    next: AtomicUsize,
    tally: Mutex<Tally>,
    /// A run of which the two leave something else.
    found: Mutex<Option<Run>>,
}

/// What the oracle expects and what the port leaves, asked at once.
pub fn both(runs: &[Run], oracle: &mut Side, port: &mut Side, way: Way) -> (Vec<Expected>, Vec<Ran>) {
    std::thread::scope(|s| {
        let theirs = s.spawn(|| expected(runs, oracle, way));
        let ours = port.ask(runs);
        (theirs.join().unwrap(), ours)
    })
}

/// Of each so-manieth job on short lines the oracle is asked in both ways, which must give the same. No multiple of 2
/// or 3, so that every type has its turn.
const TWICE: usize = 17;

fn check_ways(runs: &[Run], theirs: &[Expected], oracle: &mut Side) {
    let again = expected(runs, oracle, by_sequences);
    let same = theirs.iter().zip(&again).all(|(a, b)| a.ran == b.ran);
    assert!(same, "single calls and sequences of them differ");
}

fn work(shared: &Shared, oracle: &[String], port: &[String]) {
    let (mut oracle, mut port) = (Side::start(oracle), Side::start(port));
    let mut own = Tally::new();
    while shared.found.lock().unwrap().is_none() {
        let k = shared.next.fetch_add(1, Ordering::Relaxed);
        let Some(job) = shared.jobs.get(k) else { break };
        let runs = job.runs();
        let (theirs, ours) = both(&runs, &mut oracle, &mut port, job.way());
        if k % TWICE == 0 && !job.is_long() {
            check_ways(&runs, &theirs, &mut oracle);
        }
        for ((run, ours), theirs) in runs.into_iter().zip(ours).zip(theirs) {
            count(&mut own, &run, &theirs);
            if ours != theirs.ran {
                shared.found.lock().unwrap().get_or_insert(run);
                break;
            }
        }
    }
    let mut all = shared.tally.lock().unwrap();
    own.into_iter().for_each(|(k, n)| *all.entry(k).or_default() += n);
}

/// Asks both sides everything, until all is asked or two answers differ.
pub fn run(jobs: &[Job], oracle: &[String], port: &[String], workers: usize) -> (Tally, Option<Run>) {
    let (next, tally, found) = (AtomicUsize::new(0), Mutex::default(), Mutex::default());
    let shared = Shared { jobs, next, tally, found };
    std::thread::scope(|s| {
        for _ in 0..workers {
            s.spawn(|| work(&shared, oracle, port));
        }
    });
    (shared.tally.into_inner().unwrap(), shared.found.into_inner().unwrap())
}

/// Is this an outcome? Each run has one.
fn is_outcome(what: &str) -> bool {
    what.starts_with('=')
}

pub fn runs_of(tally: &Tally) -> usize {
    tally.iter().filter(|((_, what), _)| is_outcome(what)).map(|(_, n)| n).sum()
}

/// The tally of one type, or of all where none is named.
fn show_type(tally: &Tally, of: Option<u32>) {
    let mut sums: BTreeMap<&str, usize> = BTreeMap::new();
    for ((lookup_type, what), n) in tally {
        if of.is_none_or(|t| t == *lookup_type) {
            *sums.entry(what).or_default() += n;
        }
    }
    let (outcomes, happened): (Vec<_>, Vec<_>) = sums.iter().partition(|(what, _)| is_outcome(what));
    let all: usize = outcomes.iter().map(|(_, n)| **n).sum();
    match of {
        None => println!("all types {all:9} runs"),
        Some(0) => println!("no type   {all:9} runs"),
        Some(t) => println!("type {t}    {all:9} runs"),
    }
    for (what, n) in outcomes.iter().chain(&happened) {
        println!("    {:52} {n:9}", what.trim_start_matches("= "));
    }
}

pub fn show(tally: &Tally) {
    for lookup_type in 0..=6 {
        if tally.keys().any(|(t, _)| *t == lookup_type) {
            show_type(tally, Some(lookup_type));
        }
    }
    show_type(tally, None);
}
