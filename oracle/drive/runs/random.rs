//! Random runs: most are good, some have a few faults, some have many.
use super::*;
use crate::lines::{good_line, scale, scatter_clusters, spoil, WRONG_SIZES};
use crate::rng::Rng;
use crate::tables::{damage, subtable};

/// How seldom a thing is wrong that never is.
const NEVER: usize = 1 << 60;

/// How many slots a line has.
pub type Length = fn(&mut Rng) -> usize;

/// Up to 12; seldom none.
pub fn short(r: &mut Rng) -> usize {
    match r.below(40) {
        0 => 0,
        1..=3 => 1,
        _ => 2 + r.below(11),
    }
}

/// From 13 to 1,024.
pub fn long(r: &mut Rng) -> usize {
    match r.below(8) {
        0 => 1024,
        1 => 1000 + r.below(25),
        2..=4 => 13 + r.below(200),
        _ => 13 + r.below(1012),
    }
}

/// Changes which slots are seen: all, none, one, few; or leaves them as they are.
fn see(r: &mut Rng, call: &mut Call) {
    let (n, way) = (call.slots(), r.below(20));
    let one = r.below(n);
    for (i, slot) in call.each_slot().enumerate() {
        let seen = match way {
            0..=3 => true,
            4 => false,
            5 => i == one,
            6 | 7 => r.once_in(4),
            8 => i % 2 == 0,
            _ => slot[4] & 1 == 1,
        };
        slot[4] = slot[4] & 6 | u8::from(seen);
    }
}

/// Cursive attachments in a ring, mostly in the line's second half, of slots that are seen.
fn ring(r: &mut Rng, call: &mut Call) {
    let n = call.slots();
    if n < 2 {
        return;
    }
    let around = 2 + r.below(3.min(n - 1));
    let (most, half) = (n - around, if r.once_in(3) { 0 } else { n / 2 });
    let first = (half + r.below(n - half)).min(most);
    for i in first..first + around {
        let chain = if i + 1 < first + around { 1 } else { 1 - around as i16 };
        call.slot(i)[4] |= 1;
        call.slot(i)[5] = 2;
        call.slot(i)[6..8].copy_from_slice(&chain.to_be_bytes());
    }
}

/// Glyphs that one became: seen, with components counted from 0.
fn multiply(r: &mut Rng, call: &mut Call) {
    let (n, id) = (call.slots(), r.below(8) as u8);
    let first = r.below(n);
    let end = (first + 2 + r.below(4)).min(n);
    for (component, i) in (first..end).enumerate() {
        call.slot(i)[2..5].copy_from_slice(&[id, component as u8, 5]);
    }
}

/// Marks that go together, mostly: seen, and of one id and component.
fn stack(r: &mut Rng, call: &mut Call) {
    let (id, component) = (r.below(3) as u8, r.below(3) as u8);
    for slot in call.each_slot() {
        if !r.once_in(8) {
            slot[4] |= if r.once_in(6) { 2 } else { 3 };
        }
        if !r.once_in(6) {
            slot[2..4].copy_from_slice(&[id, component]);
        }
    }
}

/// What marks look at in a line.
fn mark(r: &mut Rng, call: &mut Call) {
    if call.kind == MARK_MARK && !r.once_in(4) {
        stack(r, call);
    }
    if call.kind != MARK_MARK && r.once_in(3) {
        multiply(r, call);
    }
    if r.once_in(3) {
        ring(r, call);
    }
}

/// A good line, mostly one that was started: old chains, with rings among them, would stop most runs of marks.
fn line(r: &mut Rng, kind: usize, size: usize, n: usize) -> Vec<u8> {
    let mut call = Call { kind, size: size as u64, line: good_line(r, size, n), ..Call::default() };
    if !r.once_in(if kind >= MARK_BASE { 6 } else { 2 }) {
        call.each_slot().for_each(|slot| slot[5..8].fill(0));
    }
    see(r, &mut call);
    if kind >= MARK_BASE {
        mark(r, &mut call);
    }
    scatter_clusters(r, &mut call);
    call.line
}

/// One to eight subtables. Some cover most glyphs, some few, so that often a later one applies.
fn parts(r: &mut Rng, kind: usize, odds: usize) -> Vec<Vec<u8>> {
    let count = if r.once_in(3) { 1 + r.below(2) } else { 1 + r.below(MOST) };
    let usual = r.left_out;
    let mut out = vec![];
    for _ in 0..count {
        r.left_out = r.pick(&[usual, usual, |n| n % 2 == 0, |n| n % 5 != 0]);
        let mut t = subtable(r, kind, odds);
        damage(r, &mut t, odds);
        out.push(t);
    }
    r.left_out = usual;
    if r.once_in(200) {
        let k = r.below(count);
        out[k].resize(r.pick(&[65535, 65536, 65537]), 0);
    }
    out
}

/// Lengths that don't add up, or add up to the buffer but lead to other subtables.
fn spoil_lengths(r: &mut Rng, run: &mut Run) {
    let (k, j) = (r.below(run.lens.len()), r.below(run.lens.len()));
    let step = 1 + r.below(3) as u64;
    match r.below(11) {
        0 => run.lens[k] += step,
        1 => run.lens[k] = run.lens[k].saturating_sub(step),
        2 => {
            run.lens[k] += step;
            run.lens[j] = run.lens[j].wrapping_sub(step);
        }
        3 => {
            run.lens[k] = run.lens[k].wrapping_sub(1 << 63);
            run.lens[j] = run.lens[j].wrapping_add(1 << 63);
        }
        4 => run.lens[k] += 1 << 32,
        5 => run.lens[k] = r.pick(&[0, u64::MAX, 1 << 63, 65536]),
        6 => run.lens.insert(k, 0),
        7 => drop(run.lens.pop()),
        8 => {
            let last = run.lens.pop().unwrap_or(0);
            if let Some(n) = run.lens.last_mut() {
                *n += last;
            }
        }
        9 => run.subtables.extend(vec![0; step as usize]),
        _ => drop(run.subtables.pop()),
    }
}

/// As many subtables as there mustn't be: none, nine and more, or a number that is good if it is cut to 8 or 16 bits.
fn spoil_count(r: &mut Rng, run: &mut Run) {
    let first = run.part(0).to_vec();
    match r.below(4) {
        0 => run.set_parts(&[]),
        1 | 2 => {
            let count = r.pick(&[9, 9, 10, 16]);
            run.set_parts(&vec![first; count]);
        }
        _ => {
            let more = if r.once_in(20) { 65536 } else { 256 };
            run.lens.resize(run.lens.len() + more, 0);
        }
    }
}

/// Types that there aren't, and other types.
fn spoil_type(r: &mut Rng, lookup_type: u32) -> u32 {
    let other = 1 + r.below(6) as u32;
    r.pick(&[0, 7, 8, 9, other, other, 256 + lookup_type, 65536 + lookup_type, (1 << 31) + lookup_type, u32::MAX])
}

/// Mostly as many places as there must be, or some more.
fn places(r: &mut Rng, slots: usize, parts: usize, odds: usize) -> usize {
    let exact = 2 * slots * parts;
    if r.once_in(odds) {
        return r.pick(&[exact.saturating_sub(1), exact.saturating_sub(1), slots * parts, 2 * slots, 2 * parts, 0]);
    }
    match r.below(4) {
        0 | 1 => exact,
        2 => exact + 1,
        _ => exact + r.below(20),
    }
}

/// A line as it mustn't be.
fn spoil_line(r: &mut Rng, run: &mut Run, odds: usize) {
    let size = run.stride();
    spoil(r, &mut run.line, size, odds);
    if r.once_in(2 * odds) {
        run.size = if r.once_in(4) { r.pick(&FORMS) as u64 } else { r.pick(&WRONG_SIZES) };
    }
    if r.once_in(4 * odds) {
        run.size = 26;
        run.line = good_line(r, 26, 1 + run.line.len() / 26);
    }
}

fn spoil_rest(r: &mut Rng, run: &mut Run, odds: usize) {
    if r.once_in(odds) {
        run.direction = r.pick(&[4, 5, 255, 256, u32::MAX]);
    }
    if r.once_in(odds) {
        run.lookup_type = spoil_type(r, run.lookup_type);
    }
    if r.once_in(odds) {
        spoil_lengths(r, run);
    } else if r.once_in(odds) {
        spoil_count(r, run);
    }
    spoil_line(r, run, odds);
}

/// A random run of the type that makes calls of this kind.
pub fn random(r: &mut Rng, kind: usize, length: Length) -> Run {
    let odds = r.pick(&[NEVER, NEVER, 300, 60, 40, 12]);
    let slips = r.pick(&[NEVER, NEVER, NEVER, 2000, 400, 60]);
    let (size, n) = (r.pick(&FORMS), length(r));
    let mut run = Run {
        lookup_type: type_of(kind),
        lookup_flag: r.pick(&[0, 1, 1, 0, 2, 3, 0x100, 0x101, 0xFFFE, 0xFFFF, 0x1_0000, u32::MAX]),
        direction: r.below(4) as u32,
        s: scale(r, 1, 32768, odds),
        u: scale(r, 16, 16384, odds),
        size: size as u64,
        line: line(r, kind, size, n),
        ..Run::default()
    };
    let parts = parts(r, kind, slips);
    run.set_parts(&parts);
    spoil_rest(r, &mut run, odds);
    run.places = places(r, n, run.lens.len() % 256, odds);
    run
}
