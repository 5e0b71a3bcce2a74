//! Writes the lists that the programs of the gate run, calls with what the oracle answers: `replay`'s, picked from a run's calls and then the groups that are made
//! for it, and `sums`', the worked sums with their labels. The port is asked too, and where it differs nothing is written.
use crate::call::*;
use crate::compare::plan;
use crate::groups::groups;
use crate::sides::Side;
use crate::worked_sums::sums;
use std::collections::BTreeMap;

/// So many calls of each kind, form and outcome, and none with more bytes than this.
const EACH: usize = 50;
const LONGEST: usize = 400;

/// A label is at most so long.
const LONGEST_LABEL: usize = 400;

/// A call with its answer.
type Answered = (Call, Answer);

fn stop(text: &str) -> ! {
    eprintln!("oracle/run: {text}");
    std::process::exit(1)
}

/// One entry: 24 numbers of 32 bits, big-endian, then the line, the subtable and the line afterwards; of a move, the line and the target before and after. None
/// where a number has more bits.
fn entry((call, a): &Answered) -> Option<Vec<u8>> {
    let mut numbers = vec![call.kind as u64];
    numbers.extend([call.direction, call.s, call.u, call.limit, call.attachments, call.missing, call.lookup_flag].map(u64::from));
    numbers.extend([call.size, call.index, call.neighbour, call.line.len() as u64, call.subtable.len() as u64]);
    numbers.extend([a.status, a.refusal, a.attached, a.hazards, a.next]);
    numbers.extend(a.hazard.concat());
    let mut out = vec![];
    for n in numbers {
        out.extend(u32::try_from(n).ok()?.to_be_bytes());
    }
    Some([out, call.line.clone(), call.subtable.clone(), a.line.clone()].concat())
}

/// Every call that is short enough, by kind, form and outcome, in the order of a run.
fn candidates(kinds: &[usize], oracle: &mut Side) -> BTreeMap<(usize, usize, String), Vec<Answered>> {
    let mut found: BTreeMap<(usize, usize, String), Vec<Answered>> = BTreeMap::new();
    for &kind in kinds {
        for job in plan(&[kind], 30_000, 2, 7) {
            let calls = job.calls();
            let answers = oracle.ask(&calls);
            for (call, answer) in calls.into_iter().zip(answers) {
                let changed = if answer.line == call.written().0 { "" } else { ", changed" };
                let case = (kind, call.form(), answer.outcome() + changed);
                let answered = (call, answer);
                if answered.0.line.len() + answered.0.subtable.len() <= LONGEST && entry(&answered).is_some() {
                    found.entry(case).or_default().push(answered);
                }
            }
        }
    }
    found
}

/// Of each outcome some, evenly from all that were found.
fn picked(kinds: &[usize], oracle: &mut Side) -> Vec<Answered> {
    let mut out = vec![];
    for ((kind, form, outcome), found) in candidates(kinds, oracle) {
        let taken = found.len().min(EACH);
        out.extend((0..taken).map(|k| found[k * found.len() / taken].clone()));
        println!("{:14} {} {outcome:40} {taken:4} of {}", NAMES[kind], form_name(form), found.len());
    }
    out
}

/// The groups that are made for the list.
fn grouped(oracle: &mut Side) -> Vec<Answered> {
    let mut out = vec![];
    for group in groups() {
        let answers = oracle.ask(&group.calls);
        let mut tally: BTreeMap<String, usize> = BTreeMap::new();
        answers.iter().for_each(|a| *tally.entry(a.outcome()).or_default() += 1);
        let outcomes: Vec<String> = tally.iter().map(|(outcome, n)| format!("{outcome} {n}")).collect();
        println!("{}: {} calls ({})", group.name, group.calls.len(), outcomes.join(", "));
        out.extend(group.calls.into_iter().zip(answers));
    }
    out
}

/// Stops where the port answers something else.
fn ask_port(answered: &[Answered], port: &mut Side) {
    for some in answered.chunks(1000) {
        let calls: Vec<Call> = some.iter().map(|(call, _)| call.clone()).collect();
        for (ours, (call, theirs)) in port.ask(&calls).iter().zip(some) {
            if ours != theirs {
                let what = ours.difference(theirs, call.written().1).unwrap_or_default();
                stop(&format!("no list is written: port and oracle differ: {}: {what}\nagain: oracle/run --replay {}", call.describe(), hex(&call.frame())));
            }
        }
    }
}

/// How many entries, in 32 bits, and then they.
fn save(path: &str, what: &str, entries: &[Vec<u8>]) {
    let out = [(entries.len() as u32).to_be_bytes().to_vec(), entries.concat()].concat();
    if let Err(e) = std::fs::write(path, &out) {
        stop(&format!("{path} is not written: {e}"));
    }
    println!("{} {what}, {} bytes, written to {path}", entries.len(), out.len());
}

/// The entry, where there is one: a call that is made for a list has no number of more than 32 bits.
fn entry_of(answered: &Answered) -> Vec<u8> {
    entry(answered).unwrap_or_else(|| stop(&format!("a number of more than 32 bits: {}", answered.0.describe())))
}

/// The entries of the program `replay`.
fn calls_entries(kinds: &[usize], oracle: &mut Side, port: &mut Side) -> Vec<Vec<u8>> {
    let answered = [picked(kinds, oracle), grouped(oracle)].concat();
    ask_port(&answered, port);
    answered.iter().map(entry_of).collect()
}

/// The entries of the program `sums`: in front of each call its label, behind the label's length in 32 bits.
fn sums_entries(oracle: &mut Side, port: &mut Side) -> Vec<Vec<u8>> {
    let sums = sums();
    let calls: Vec<Call> = sums.iter().map(|sum| sum.call.clone()).collect();
    let answered: Vec<Answered> = calls.iter().cloned().zip(oracle.ask(&calls)).collect();
    ask_port(&answered, port);
    let mut entries = vec![];
    for (sum, answered) in sums.iter().zip(&answered) {
        sum.check(&answered.1);
        assert!(sum.label.is_ascii() && sum.label.len() <= LONGEST_LABEL, "{}", sum.label);
        entries.push([&(sum.label.len() as u32).to_be_bytes()[..], sum.label.as_bytes(), &entry_of(answered)].concat());
    }
    entries
}

/// Writes the list of `replay` to the first path and that of `sums` to the second.
pub fn write(paths: &[String; 2], kinds: &[usize], oracle: &mut Side, port: &mut Side) {
    let calls = calls_entries(kinds, oracle, port);
    let sums = sums_entries(oracle, port);
    save(&paths[0], "calls", &calls);
    save(&paths[1], "worked sums", &sums);
}
