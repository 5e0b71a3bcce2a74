//! The smallest run that still makes the two sides differ, as far as small steps lead; and both answers to a run.
use super::compare::both;
use super::sequence::by_sequences;
use super::*;
use crate::sides::Side;

/// Makes a run simpler, or leaves it. No step undoes another, so that steps come to an end.
type Step = Box<dyn Fn(&mut Run)>;

/// Drops a subtable and its length.
fn drop_part(run: &mut Run, k: usize) {
    if run.adds_up() {
        let mut parts = run.parts();
        parts.remove(k);
        run.set_parts(&parts);
    }
}

/// Cuts a subtable.
fn cut_part(run: &mut Run, k: usize, by: usize) {
    if run.adds_up() {
        let mut parts = run.parts();
        let left = parts[k].len().saturating_sub(by);
        parts[k].truncate(left);
        run.set_parts(&parts);
    }
}

/// Drops slots, and the places that they take.
fn drop_slots(run: &mut Run, from: usize, to: usize) {
    let n = run.stride();
    run.line.drain(n * from..n * to);
    let fewer = 2 * (to - from) * run.lens.len();
    run.places = run.places.saturating_sub(fewer);
}

/// Steps to fewer slots and fewer bytes of subtables, boldest first.
fn shorter(run: &Run) -> Vec<Step> {
    let mut out: Vec<Step> = vec![];
    for size in [256, 64, 16, 4, 1] {
        for i in (0..run.slots()).step_by(size) {
            let end = (i + size).min(run.slots());
            out.push(Box::new(move |d| drop_slots(d, i, end)));
        }
    }
    for k in 0..run.lens.len().min(MOST) {
        out.push(Box::new(move |d| drop_part(d, k)));
        for by in [256, 16, 2, 1] {
            out.push(Box::new(move |d| cut_part(d, k, by)));
        }
    }
    out
}

/// Steps from this run, boldest first.
fn steps(run: &Run) -> Vec<Step> {
    let mut out = shorter(run);
    out.push(Box::new(|d| d.places = d.places.min(d.exact_places())));
    out.push(Box::new(|d| d.direction = 0));
    out.push(Box::new(|d| (d.s, d.u) = (1000, 1000)));
    out.push(Box::new(|d| d.lookup_flag &= 1));
    out.push(Box::new(|d| d.lookup_flag = 0));
    for at in 0..run.line.len() {
        out.push(Box::new(move |d| d.line[at] = 0));
    }
    for at in 0..run.subtables.len().min(2000) {
        out.push(Box::new(move |d| d.subtables[at] = 0));
    }
    out
}

/// The run after a step, if that changes it.
fn after(run: &Run, step: &Step) -> Option<Run> {
    let mut d = run.clone();
    step(&mut d);
    (d != *run).then_some(d)
}

pub fn shrink(mut run: Run, oracle: &mut Side, port: &mut Side) -> Run {
    for _ in 0..400 {
        let differ = steps(&run).chunks(64).find_map(|some| {
            let tries: Vec<Run> = some.iter().filter_map(|step| after(&run, step)).collect();
            let (theirs, ours) = both(&tries, oracle, port, by_sequences);
            let k = (0..tries.len()).find(|k| ours[*k] != theirs[*k].ran)?;
            Some(tries[k].clone())
        });
        match differ {
            Some(smaller) => run = smaller,
            None => break,
        }
    }
    run
}

/// Both answers to one run, and whether they are alike.
pub fn show(run: &Run, oracle: &mut Side, port: &mut Side) -> bool {
    let (theirs, ours) = both(std::slice::from_ref(run), oracle, port, by_sequences);
    println!("{}", run.describe());
    println!("  line      {}\n  subtables {}", hex(&run.line), hex(&run.subtables));
    for (name, a) in [("oracle", &theirs[0].ran), ("port", &ours[0])] {
        println!("  {name:8}  {}, index {}, {} hazards {:?}", a.outcome(), a.index, a.count, a.hazards());
        println!("            {}", hex(&a.line));
    }
    match ours[0].difference(&theirs[0].ran, run.stride()) {
        None => println!("alike"),
        Some(d) => println!("they differ (port and oracle): {d}"),
    }
    ours[0] == theirs[0].ran
}
