//! Writes the runs that runs/replay.c makes again, with what the Rust's single calls leave: picked from a
//! comparison's, one of everything that happens in runs, and for each fault that can be planted one that shows it. The
//! port is asked too, and where it differs nothing is written.
use super::compare::{happenings, plan, Amount};
use super::model::Expected;
use super::planted::{Asking, Planting, Sides};
use super::*;
use crate::sides::Side;
use std::collections::{BTreeMap, BTreeSet};

/// Runs have at most so many bytes of line, subtables and lengths. A fault that shorter ones don't show may be shown
/// by a longer one.
const LONGEST: [usize; 3] = [420, 1200, 2600];

/// What the runs are picked from.
const AMOUNT: Amount = Amount { short: 12_000, long: 0, every: 5, seed: 2 };

type Recorded = (Run, Expected);

impl Asking {
    fn recorded(&self, k: usize) -> Recorded {
        (self.runs[k].clone(), self.theirs[k].clone())
    }
}

/// What runs have in common of which one is picked: type, form, what came of them and what happened.
type Case = (u32, usize, String);

fn stop(text: &str) -> ! {
    eprintln!("oracle/run: {text}");
    std::process::exit(1)
}

/// A number in groups of seven bits, the highest first; all bytes but the last have the high bit.
fn number(out: &mut Vec<u8>, n: u64) {
    let groups = (64 - n.leading_zeros()).div_ceil(7).max(1);
    for k in (0..groups).rev() {
        let group = (n >> (7 * k) & 127) as u8;
        out.push(if k > 0 { group | 128 } else { group });
    }
}

/// One entry, as runs/replay.c reads it.
fn entry((run, e): &Recorded) -> Vec<u8> {
    let mut numbers: Vec<u64> = vec![];
    numbers.extend([run.lookup_type, run.lookup_flag, run.direction, run.s, run.u].map(u64::from));
    numbers.extend([run.size, run.lens.len() as u64]);
    numbers.extend(&run.lens);
    numbers.extend([run.subtables.len(), run.line.len(), run.places].map(|n| n as u64));
    numbers.extend([e.ran.refusal, e.ran.attached, e.ran.index, e.ran.count]);
    numbers.extend(e.ran.hazards().concat());
    let mut out = vec![];
    numbers.iter().for_each(|n| number(&mut out, *n));
    out.extend(&run.line);
    out.extend(&run.subtables);
    out.push(u8::from(e.ran.line != run.line));
    if e.ran.line != run.line {
        out.extend(&e.ran.line);
    }
    out
}

fn bytes_of(run: &Run) -> usize {
    run.line.len() + run.subtables.len() + run.lens.len()
}

/// Stops where the port leaves something else.
fn check(run: &Run, e: &Expected, ours: &Ran) {
    if *ours != e.ran {
        let what = ours.difference(&e.ran, run.stride()).unwrap_or_default();
        println!("{}: {what}\nagain: oracle/run --replay {}", run.describe(), hex(&run.frame()));
        stop("nothing is written: port and oracle differ");
    }
}

fn case_of(run: &Run, e: &Expected) -> Case {
    let mut what = e.ran.outcome();
    happenings(run, e).iter().for_each(|words| what += &format!(", {words}"));
    (run.lookup_type.min(7), run.form(), what)
}

/// The runs that were found: by their cases, and those that show a fault.
#[derive(Default)]
struct Found {
    cases: BTreeMap<Case, Vec<Recorded>>,
    shown: Vec<(String, Recorded)>,
}

impl Found {
    fn add_cases(&mut self, all: &Asking) {
        for k in 0..all.runs.len() {
            check(&all.runs[k], &all.theirs[k], &all.plain[k]);
            self.cases.entry(case_of(&all.runs[k], &all.theirs[k])).or_default().push(all.recorded(k));
        }
    }
    fn add_shown(&mut self, all: &Asking, noticed: Vec<(String, usize)>) {
        self.shown.extend(noticed.into_iter().map(|(name, k)| (name, all.recorded(k))));
    }
    /// Of each case the one in the middle, and those that show a fault; none twice.
    fn entries(&self) -> Vec<Vec<u8>> {
        let (mut out, mut known) = (vec![], BTreeSet::new());
        let mut add = |recorded: &Recorded| {
            let entry = entry(recorded);
            if known.insert(entry.clone()) {
                out.push(entry);
            }
        };
        for ((lookup_type, form, what), all) in &self.cases {
            println!("type {lookup_type} {} {what}: one of {}", form_name(*form), all.len());
            add(&all[all.len() / 2]);
        }
        for (name, recorded) in &self.shown {
            println!("{name}: shown");
            add(recorded);
        }
        out
    }
}

/// Finds runs of a kind: of the shortest the cases, and of all those that show a fault. What none shows is said.
fn find(kind: usize, sides: &mut Sides, found: &mut Found) {
    let mut planting = Planting::new(kind);
    for (k, longest) in LONGEST.into_iter().enumerate() {
        let shortest = if k == 0 { 0 } else { LONGEST[k - 1] + 1 };
        for job in plan(&[kind], AMOUNT) {
            let mut runs = job.runs();
            runs.retain(|run| (shortest..=longest).contains(&bytes_of(run)));
            let all = sides.ask(runs, job.way());
            if k == 0 {
                found.add_cases(&all);
            }
            let noticed = planting.notice(&all, sides);
            found.add_shown(&all, noticed);
        }
    }
    planting.names_left().iter().for_each(|name| println!("{name}: shown by no small run"));
}

/// Writes how many there are, and then they.
pub fn write(path: &str, kinds: &[usize], oracle: Side, port: Side) {
    let (mut sides, mut found) = (Sides { oracle, port }, Found::default());
    kinds.iter().filter(|k| is_applying(**k)).for_each(|k| find(*k, &mut sides, &mut found));
    let entries = found.entries();
    let mut out = vec![];
    number(&mut out, entries.len() as u64);
    out.extend(entries.concat());
    if let Err(e) = std::fs::write(path, &out) {
        stop(&format!("{path} is not written: {e}"));
    }
    println!("{} runs, {} bytes, written to {path}", entries.len(), out.len());
}
