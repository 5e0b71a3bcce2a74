//! Calls and their mirrors: every number of the font and every measure of the line is negated, all else is the same. The port must say the same of both, and leave
//! lines that are mirrors. No sum of these calls leaves 32 bits: saturation has no mirror.
use crate::call::*;
use crate::compare::{show, Tally};
use crate::lines::arguments;
use crate::rng::Rng;
use crate::sides::Side;
use crate::tables::subtable;

/// Measures are smaller than this: a walk through 1,024 slots, with a scaled number, fits 32 bits.
const MOST: i32 = 1 << 20;

/// How seldom an offset, a count or a format is made wrong: a wrong one could make a number of the font out of something else, which isn't negated.
const NEVER: usize = 1 << 60;

const BATCH: usize = 1000;

/// What is made of the numbers of a call, those of the font and those of the line.
#[derive(Clone, Copy)]
struct Twin {
    value: fn(i16) -> i16,
    measure: fn(i32) -> i32,
}

/// The least number of 16 bits has no mirror.
fn mirrorable(v: i16) -> i16 {
    v.max(-i16::MAX)
}

const PLAIN: Twin = Twin { value: mirrorable, measure: |m| m % MOST };
const MIRROR: Twin = Twin { value: |v| -mirrorable(v), measure: |m| -(m % MOST) };

fn change_measures(line: &mut [u8], slot: usize, change: fn(i32) -> i32) {
    for measure in line.chunks_exact_mut(slot).flat_map(|s| s[8..24].chunks_exact_mut(4)) {
        let m = i32::from_be_bytes([measure[0], measure[1], measure[2], measure[3]]);
        measure.copy_from_slice(&change(m).to_be_bytes());
    }
}

/// One of two calls that a seed makes. Marks on marks have the subtable of marks on bases, of the same layout: one that is made for them may have anchors among its
/// offsets.
fn made(kind: usize, seed: u64, twin: Twin) -> Call {
    let mut r = Rng::new(seed);
    let mut call = arguments(&mut r, kind, NEVER);
    let slot = call.stride();
    change_measures(&mut call.line, slot, twin.measure);
    r.value = twin.value;
    call.subtable = subtable(&mut r, if kind == MARK_MARK { MARK_BASE } else { kind }, NEVER);
    call
}

/// Is a number of the subtable taken for a coordinate? The anchor of a mark may have offset 0, and so be the mark array itself: its count, 3, is then the format.
fn has_odd_anchor(call: &Call) -> bool {
    let number = |at: usize| usize::from(u16::from_be_bytes([call.subtable[at], call.subtable[at + 1]]));
    call.kind >= MARK_BASE && number(8) != 0 && number(number(8)) == 3
}

/// The answer that the mirror of a call must have.
fn mirror_of(answer: &Answer, slot: usize) -> Answer {
    let mut out = answer.clone();
    change_measures(&mut out.line, slot, |m| -m);
    out
}

/// Asks `calls` calls, shared by those of the kinds that apply a subtable, and their mirrors.
pub fn run(kinds: &[usize], port: &mut Side, calls: usize, seed: u64) -> bool {
    let kinds: Vec<usize> = kinds.iter().copied().filter(|k| is_applying(*k)).collect();
    if kinds.is_empty() {
        crate::fail("--mirrored wants a kind that applies a subtable");
    }
    let mut tally = Tally::new();
    let mut r = Rng::new(seed);
    for batch in 0..calls.div_ceil(BATCH) {
        let kind = kinds[batch % kinds.len()];
        let seeds = std::iter::repeat_with(|| r.next()).filter(|s| !has_odd_anchor(&made(kind, *s, PLAIN)));
        let seeds: Vec<u64> = seeds.take(BATCH.min(calls - batch * BATCH)).collect();
        let [plain, mirror] = [PLAIN, MIRROR].map(|twin| seeds.iter().map(|s| made(kind, *s, twin)).collect::<Vec<Call>>());
        for (k, (answer, mirrored)) in port.ask(&plain).iter().zip(port.ask(&mirror)).enumerate() {
            *tally.entry((kind, plain[k].form(), answer.outcome())).or_default() += 1;
            let expected = mirror_of(answer, plain[k].stride());
            if answer.harm != 0 || mirrored != expected {
                let difference = mirrored.difference(&expected, plain[k].stride()).unwrap_or("harm done, or another length".into());
                println!("NOT MIRRORED: {}: {difference} (the mirror's, and what it must be)", plain[k].describe());
                println!("the call: oracle/run --replay {}\nits mirror: oracle/run --replay {}", hex(&plain[k].frame()), hex(&mirror[k].frame()));
                return false;
            }
        }
    }
    show(&tally);
    println!("{calls} calls and their mirrors, seed {seed}: the same answers, mirrored lines");
    true
}
