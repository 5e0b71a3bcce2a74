//! Runs: what is asked, in which order, and what came of it.
use crate::call::*;
use crate::rng::Rng;
use crate::sets::{made, random, sets};
use crate::sides::Side;
use std::collections::BTreeMap;
use std::sync::atomic::{AtomicUsize, Ordering};
use std::sync::Mutex;

/// Some calls of one kind, made when they are due.
#[derive(Clone, Copy)]
pub enum Job {
    Set { kind: usize, form: usize, set: usize, from: usize, to: usize, every: usize },
    Random { kind: usize, seed: u64, count: usize },
}

const BATCH: usize = 1000;

impl Job {
    pub fn calls(self) -> Vec<Call> {
        match self {
            Job::Set { kind, form, set, from, to, every } => {
                let set = &sets(kind)[set];
                (from..to).map(|k| made(set, kind, form, k * every)).collect()
            }
            Job::Random { kind, seed, count } => {
                let mut r = Rng::new(seed);
                (0..count).map(|_| random(&mut r, kind)).collect()
            }
        }
    }
}

fn set_jobs(kind: usize, form: usize, every: usize, jobs: &mut Vec<Job>) {
    for (set, s) in sets(kind).iter().enumerate() {
        let count = s.count.div_ceil(every);
        for from in (0..count).step_by(BATCH) {
            jobs.push(Job::Set { kind, form, set, from, to: (from + BATCH).min(count), every });
        }
    }
}

/// The jobs of a run: every set in each form (of its calls each `every`-th), then `calls` random ones, shared by the kinds.
pub fn plan(kinds: &[usize], calls: usize, seed: u64, every: usize) -> Vec<Job> {
    let mut jobs = vec![];
    for &kind in kinds {
        for &form in forms(kind) {
            set_jobs(kind, form, every, &mut jobs);
        }
    }
    let mut left = calls;
    let mut batch = 0;
    while left > 0 && !kinds.is_empty() {
        let count = left.min(BATCH);
        jobs.push(Job::Random { kind: kinds[batch % kinds.len()], seed: seed.wrapping_mul(0x1_0000_0001).wrapping_add(batch as u64), count });
        left -= count;
        batch += 1;
    }
    jobs
}

/// How often each kind had each outcome in each form.
pub type Tally = BTreeMap<(usize, usize, String), usize>;

pub struct Found {
    pub call: Call,
    pub ours: Answer,
    pub theirs: Answer,
}

fn work(jobs: &[Job], next: &AtomicUsize, oracle: &[String], port: &[String], tally: &Mutex<Tally>, found: &Mutex<Option<Found>>) {
    let (mut oracle, mut port) = (Side::start(oracle), Side::start(port));
    let mut own = Tally::new();
    while found.lock().unwrap().is_none() {
        let Some(job) = jobs.get(next.fetch_add(1, Ordering::Relaxed)) else { break };
        let calls = job.calls();
        let (theirs, ours) = std::thread::scope(|s| {
            let theirs = s.spawn(|| oracle.ask(&calls));
            let ours = port.ask(&calls);
            (theirs.join().unwrap(), ours)
        });
        for ((call, ours), theirs) in calls.into_iter().zip(ours).zip(theirs) {
            *own.entry((call.kind, call.form(), theirs.outcome())).or_default() += 1;
            if ours != theirs {
                found.lock().unwrap().get_or_insert(Found { call, ours, theirs });
                break;
            }
        }
    }
    let mut all = tally.lock().unwrap();
    for (k, n) in own {
        *all.entry(k).or_default() += n;
    }
}

/// Asks both sides everything, until all is asked or two answers differ.
pub fn run(jobs: &[Job], oracle: &[String], port: &[String], workers: usize) -> (Tally, Option<Found>) {
    let (next, tally, found) = (AtomicUsize::new(0), Mutex::new(Tally::new()), Mutex::new(None));
    std::thread::scope(|s| {
        for _ in 0..workers {
            s.spawn(|| work(jobs, &next, oracle, port, &tally, &found));
        }
    });
    (tally.into_inner().unwrap(), found.into_inner().unwrap())
}

pub fn show(tally: &Tally) {
    let mut last = None;
    for ((kind, form, outcome), n) in tally {
        if last != Some((kind, form)) {
            let all: usize = tally.iter().filter(|((k, f, _), _)| (k, f) == (kind, form)).map(|(_, n)| n).sum();
            println!("{:14} {} {all:9} calls", NAMES[*kind], form_name(*form));
            last = Some((kind, form));
        }
        println!("    {outcome:30} {n:9}");
    }
}
