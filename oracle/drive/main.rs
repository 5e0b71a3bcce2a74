//! Makes calls, asks the oracle and the port, and compares every field and every byte. oracle/run builds both and starts this.
mod anchors;
mod call;
mod compare;
mod edges;
mod glyph_lists;
mod groups;
mod lines;
mod list;
mod long_lines;
mod mirrored;
mod moves;
mod planted;
mod rng;
mod runs;
mod sets;
mod shrink;
mod sides;
mod stacks;
mod tables;
mod worked_sums;

use call::*;
use runs::Run;
use sides::{Asked, Side};

/// What oracle/run was given.
struct Options {
    oracle: Vec<String>,
    port: Vec<String>,
    calls: Option<usize>,
    seed: u64,
    every: usize,
    workers: usize,
    kinds: Vec<usize>,
    replay: Option<String>,
    planted: bool,
    mirrored: Option<usize>,
    /// Of a lookup: on short lines, and on long ones.
    runs: Option<usize>,
    long: Option<usize>,
    /// The list of replay, and that of sums.
    lists: Option<[String; 2]>,
    /// Where recorded runs are written to.
    record: Option<String>,
}

impl Options {
    /// How many random calls.
    fn calls(&self) -> usize {
        self.calls.unwrap_or(1_000_000)
    }
    /// Calls are not compared where something else is asked for, and they are not.
    fn is_without_calls(&self) -> bool {
        (self.mirrored.is_some() || self.runs.is_some()) && self.calls.is_none()
    }
    fn amount(&self, short: usize) -> runs::compare::Amount {
        let long = self.long.unwrap_or(short / 100);
        runs::compare::Amount { short, long, every: self.every, seed: self.seed }
    }
}

fn fail(text: &str) -> ! {
    eprintln!("oracle/run: {text}");
    std::process::exit(2)
}

fn number(text: &str) -> usize {
    text.replace(['_', ','], "").parse().unwrap_or_else(|_| fail(&format!("{text} is not a number")))
}

fn kinds(text: &str) -> Vec<usize> {
    let of = |name: &str| NAMES.iter().position(|n| *n == name).unwrap_or_else(|| fail(&format!("no kind is called {name}; there are {}", NAMES.join(", "))));
    text.split(',').map(of).collect()
}

fn options() -> Options {
    let workers = std::thread::available_parallelism().map_or(1, usize::from);
    let mut o = Options {
        oracle: vec![],
        port: vec![],
        calls: None,
        seed: 1,
        every: 1,
        workers,
        kinds: (0..NAMES.len()).collect(),
        replay: None,
        planted: false,
        mirrored: None,
        runs: None,
        long: None,
        lists: None,
        record: None,
    };
    let mut words = std::env::args().skip(1);
    while let Some(word) = words.next() {
        let mut value = || words.next().unwrap_or_else(|| fail(&format!("{word} wants a value")));
        match word.as_str() {
            "--oracle" => o.oracle = value().split(' ').map(String::from).collect(),
            "--port" => o.port = value().split(' ').map(String::from).collect(),
            "--calls" => o.calls = Some(number(&value())),
            "--seed" => o.seed = number(&value()) as u64,
            "--every" => o.every = number(&value()).max(1),
            "--workers" => o.workers = number(&value()).max(1),
            "--kinds" => o.kinds = kinds(&value()),
            "--replay" => o.replay = Some(value()),
            "--planted" => o.planted = true,
            "--mirrored" => o.mirrored = Some(number(&value())),
            "--runs" => o.runs = Some(number(&value())),
            "--long" => o.long = Some(number(&value())),
            "--record" => o.record = Some(value()),
            "--lists" => o.lists = Some([value(), value()]),
            _ => fail(&format!("unknown word {word}")),
        }
    }
    o
}

/// Both answers to one call, and whether they are alike.
fn show(call: &Call, oracle: &mut Side, port: &mut Side) -> bool {
    let one = std::slice::from_ref(call);
    let (theirs, ours) = (oracle.ask(one).remove(0), port.ask(one).remove(0));
    println!("{}", call.describe());
    println!("  line      {}\n  {:8}  {}", hex(&call.line), if is_move(call.kind) { "target" } else { "subtable" }, hex(&call.subtable));
    for (name, a) in [("oracle", &theirs), ("port", &ours)] {
        println!("  {name:8}  {}, next {}, hazards {:?}", a.outcome(), a.next, &a.hazard[..a.hazards.min(2) as usize]);
        println!("            {}", hex(&a.line));
    }
    match ours.difference(&theirs, call.written().1) {
        None => println!("alike"),
        Some(d) => println!("they differ (port and oracle): {d}"),
    }
    ours == theirs
}

fn compare(o: &Options, kinds: &[usize]) -> bool {
    let began = std::time::Instant::now();
    let jobs = compare::plan(kinds, o.calls(), o.seed, o.every);
    let (tally, found) = compare::run(&jobs, &o.oracle, &o.port, o.workers);
    compare::show(&tally);
    let all: usize = tally.values().sum();
    let Some(found) = found else {
        println!("{all} calls in {} s, seed {}: port and oracle alike in every field and every byte", began.elapsed().as_secs(), o.seed);
        return true;
    };
    println!("A DIFFERENCE, made smaller:");
    let (mut oracle, mut port) = (Side::start(&o.oracle), Side::start(&o.port));
    let small = shrink::shrink(found.call, &mut oracle, &mut port);
    show(&small, &mut oracle, &mut port);
    println!("again: oracle/run --replay {}", hex(&small.frame()));
    false
}

fn compare_runs(o: &Options, kinds: &[usize], short: usize) -> bool {
    let began = std::time::Instant::now();
    let kinds: Vec<usize> = kinds.iter().copied().filter(|k| is_applying(*k)).collect();
    if kinds.is_empty() {
        fail("--runs wants a kind that applies a subtable");
    }
    let jobs = runs::compare::plan(&kinds, o.amount(short));
    let (tally, found) = runs::compare::run(&jobs, &o.oracle, &o.port, o.workers);
    runs::compare::show(&tally);
    let Some(found) = found else {
        let (all, seconds) = (runs::compare::runs_of(&tally), began.elapsed().as_secs());
        println!("{all} runs in {seconds} s, seed {}: the port leaves what the Rust's single calls leave", o.seed);
        return true;
    };
    println!("A DIFFERENCE, made smaller:");
    let (mut oracle, mut port) = (Side::start(&o.oracle), Side::start(&o.port));
    let small = runs::shrink::shrink(found, &mut oracle, &mut port);
    runs::shrink::show(&small, &mut oracle, &mut port);
    println!("again: oracle/run --replay {}", hex(&small.frame()));
    false
}

/// One call or one run again.
fn replay(o: &Options, text: &str) -> bool {
    let bytes = unhex(text).unwrap_or_default();
    let (mut oracle, mut port) = (Side::start(&o.oracle), Side::start(&o.port));
    if let Some(run) = Run::parse(&bytes) {
        return runs::shrink::show(&run, &mut oracle, &mut port);
    }
    let call = Call::parse(&bytes).unwrap_or_else(|| fail("that is not the hex of a call or of a run"));
    show(&call, &mut oracle, &mut port)
}

fn main() {
    let o = options();
    let have = Side::start(&o.port).kinds();
    let (kinds, absent): (Vec<usize>, Vec<usize>) = o.kinds.iter().partition(|k| have[**k]);
    if !absent.is_empty() {
        let names: Vec<&str> = absent.iter().map(|k| NAMES[*k]).collect();
        println!("skipped, since the library for C doesn't have them yet: {}", names.join(", "));
    }
    if let Some(paths) = &o.lists {
        if !absent.is_empty() {
            fail("the lists want every kind of call");
        }
        return list::write(paths, &kinds, &mut Side::start(&o.oracle), &mut Side::start(&o.port));
    }
    if let Some(path) = &o.record {
        return runs::record::write(path, &kinds, Side::start(&o.oracle), Side::start(&o.port));
    }
    let good = if let Some(text) = &o.replay {
        replay(&o, text)
    } else if o.planted {
        let calls = o.is_without_calls() || planted::run(&kinds, &o.oracle, &o.port, o.calls(), o.seed);
        runs::planted::run(&kinds, &o.oracle, &o.port, o.amount(o.runs.unwrap_or(60_000))) && calls
    } else {
        let mirrors = || o.mirrored.is_none_or(|n| mirrored::run(&kinds, &mut Side::start(&o.port), n, o.seed));
        let runs = || o.runs.is_none_or(|n| compare_runs(&o, &kinds, n));
        (o.is_without_calls() || compare(&o, &kinds)) && mirrors() && runs()
    };
    std::process::exit(if good { 0 } else { 1 });
}
