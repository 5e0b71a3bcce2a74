//! The smallest call that still makes the two sides differ, as far as small steps lead.
use crate::call::*;
use crate::sides::Side;
use std::ops::Range;

/// Makes a call simpler, or leaves it. No step undoes another, so that steps come to an end.
type Step = Box<dyn Fn(&mut Call)>;

/// Drops slots from the line; a move's target gets as much shorter, and a cluster that was its slot's number stays it.
fn drop_slots(d: &mut Call, slots: Range<usize>) {
    let n = d.stride();
    d.line.drain(n * slots.start..n * slots.end);
    if is_move(d.kind) {
        let cut = slots.len() * d.written().1;
        d.subtable.truncate(d.subtable.len().saturating_sub(cut));
    }
    if d.kind == FROM_CLUSTERS {
        for (i, slot) in d.each_slot().enumerate().skip(slots.start) {
            if slot[24..] == ((i + slots.len()) as u32).to_be_bytes() {
                slot[24..].copy_from_slice(&(i as u32).to_be_bytes());
            }
        }
    }
}

/// Drops the clusters of a call that is no move.
fn drop_clusters(d: &mut Call) {
    if d.form() == FORMS[1] && !is_move(d.kind) {
        d.line = d.line.chunks(FORMS[1]).flat_map(|slot| &slot[..slot.len().min(FORMS[0])]).copied().collect();
        d.size = FORMS[0] as u64;
    }
}

/// Steps to fewer slots, boldest first: the places behind them are left, or moved with them.
fn shorter(slots: usize) -> Vec<Step> {
    let mut out: Vec<Step> = vec![];
    for size in [64, 16, 4, 1] {
        for i in (0..slots).step_by(size) {
            let end = (i + size).min(slots);
            out.push(Box::new(move |d| drop_slots(d, i..end)));
            out.push(Box::new(move |d| {
                drop_slots(d, i..end);
                d.index = d.index.saturating_sub((end - i) as u64);
                d.neighbour = d.neighbour.saturating_sub((end - i) as u64);
            }));
        }
    }
    out
}

/// Steps from this call, boldest first.
fn steps(c: &Call) -> Vec<Step> {
    let mut out = shorter(c.slots());
    let mut add = |step: Step| out.push(step);
    add(Box::new(drop_clusters));
    for size in [1024, 64, 8, 2, 1] {
        if c.subtable.len() >= size {
            add(Box::new(move |d| d.subtable.truncate(d.subtable.len() - size)));
        }
    }
    add(Box::new(|d| d.direction = 0));
    add(Box::new(|d| (d.s, d.u) = (1000, 1000)));
    add(Box::new(|d| d.attachments = 1));
    add(Box::new(|d| d.lookup_flag &= 1));
    add(Box::new(|d| d.lookup_flag = 0));
    add(Box::new(|d| d.missing = d.missing.min(1)));
    for limit in [0, 1, 2, 64, 65] {
        add(Box::new(move |d| d.limit = d.limit.min(limit)));
    }
    add(Box::new(|d| d.limit = d.limit.saturating_sub(1)));
    add(Box::new(|d| d.line.truncate(d.slots() * d.stride())));
    for at in 0..c.line.len() {
        add(Box::new(move |d| d.line[at] = 0));
    }
    for at in 0..c.subtable.len() {
        add(Box::new(move |d| d.subtable[at] = 0));
    }
    out
}

/// The call after a step, if that changes it.
fn after(call: &Call, step: &Step) -> Option<Call> {
    let mut d = call.clone();
    step(&mut d);
    (d != *call).then_some(d)
}

pub fn shrink(mut call: Call, oracle: &mut Side, port: &mut Side) -> Call {
    for _ in 0..400 {
        let differ = steps(&call).chunks(64).find_map(|some| {
            let tries: Vec<Call> = some.iter().filter_map(|step| after(&call, step)).collect();
            let (theirs, ours) = (oracle.ask(&tries), port.ask(&tries));
            let k = (0..tries.len()).find(|k| ours[*k] != theirs[*k])?;
            Some(tries[k].clone())
        });
        match differ {
            Some(smaller) => call = smaller,
            None => break,
        }
    }
    call
}
