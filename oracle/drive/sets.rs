//! Calls made one by one from their number, in slots of either form: short lines in full, labels, every length around a boundary, every byte of a slot's first
//! fields, sizes that there aren't, every mixture of refusals, each argument at its ends, and each subtable cut at every byte and changed at every bit.
use crate::call::*;
use crate::lines::{arguments, push, scatter_clusters, Slot, WRONG_SIZES};
use crate::moves;
use crate::rng::Rng;
use crate::stacks;
use crate::tables::{damage, subtable, whole};

pub struct Set {
    pub name: &'static str,
    pub count: usize,
    pub make: fn(kind: usize, form: usize, number: usize) -> Call,
}

/// A line of n slots of so many bytes, for a call of the kind that is applied. For marks on marks all are marks of one component.
fn plain_line(kind: usize, size: usize, n: usize) -> Vec<u8> {
    let mut line = vec![];
    for i in 0..n {
        let is_mark = kind == MARK_MARK || kind >= MARK_BASE && i + 1 == n;
        push(
            &mut line,
            size,
            Slot {
                glyph: (i % 8) as u16,
                ligature_id: 1,
                component: if kind == MARK_MARK { 3 } else { (i % 4) as u8 },
                flags: if is_mark { 2 } else { 1 },
                kind: 0,
                chain: 0,
                measures: [600 + i as i32, 31 * i as i32, i as i32 * 7, -5 * i as i32],
            },
        );
    }
    line
}

/// A call of the kind that is applied, on such a line.
pub fn plain(kind: usize, size: usize, n: usize) -> Call {
    let index = match kind {
        PAIR => n.saturating_sub(2),
        _ => n.saturating_sub(1),
    };
    let neighbour = if kind == PAIR { index + 1 } else { index.saturating_sub(1) };
    let call = Call {
        kind,
        direction: 0,
        s: 1000,
        u: 1000,
        limit: 64,
        attachments: 1,
        missing: 0,
        lookup_flag: 0,
        size: size as u64,
        index: index as u64,
        neighbour: neighbour as u64,
        line: plain_line(kind, size, n),
        subtable: whole(kind),
    };
    moves::fitted(call)
}

/// The same with a random subtable, of which nothing is wrong but what it lacks.
fn varied(kind: usize, form: usize, seed: usize) -> Call {
    let mut call = plain(kind, form, 6);
    call.direction = (seed % 4) as u32;
    call.lookup_flag = (seed / 4 % 2) as u32;
    call.subtable = subtable(&mut Rng::new(0x5EED + seed as u64), kind, 1 << 30);
    call
}

/// The digit of `number` in a mixed base, taken off.
pub fn digit(number: &mut usize, base: usize) -> usize {
    let d = *number % base;
    *number /= base;
    d
}

/// Every line of three slots with chains -3 to 3 and types 0 to 3, in each direction, and with each limit, flag, index and neighbour that matters.
fn chains(kind: usize, form: usize, mut number: usize) -> Call {
    let mut call = plain(kind, form, 3);
    for i in 0..3 {
        let slot = call.slot(i);
        slot[5] = digit(&mut number, 4) as u8;
        let chain = digit(&mut number, 7) as i16 - 3;
        slot[6..8].copy_from_slice(&chain.to_be_bytes());
        slot[16..20].copy_from_slice(&[100i32, 1000, 10000][i].to_be_bytes());
        slot[20..24].copy_from_slice(&[3i32, 50, 700][i].to_be_bytes());
    }
    call.direction = digit(&mut number, 4) as u32;
    match kind {
        FINISH => call.limit = [0, 1, 2, 64][digit(&mut number, 4)],
        CURSIVE => {
            call.lookup_flag = digit(&mut number, 2) as u32;
            (call.index, call.neighbour) = [(1, 0), (2, 1), (2, 0)][digit(&mut number, 3)];
        }
        MARK_BASE | MARK_LIGATURE if digit(&mut number, 2) == 1 => call.slot(1)[4] = 0,
        MARK_MARK => (call.index, call.neighbour) = [(1, 0), (2, 1), (2, 0)][digit(&mut number, 3)],
        _ => {}
    }
    call
}

/// A label as fonts make them: letters, each apart or joined to the one before or after it, then marks, of which the last is attached. It has the letters' ligature id or another, and
/// any component.
fn labels(kind: usize, form: usize, mut number: usize) -> Call {
    let letters = 1 + digit(&mut number, 6);
    let mut call = plain(kind, form, letters + 1 + digit(&mut number, 3));
    let (chain, end) = [(0i16, 0), (-1, 0), (1, letters - 1)][digit(&mut number, 3)];
    let (id, component) = (1 + digit(&mut number, 2) as u8, digit(&mut number, 16) as u8);
    call.direction = digit(&mut number, 4) as u32;
    for (i, slot) in call.each_slot().enumerate() {
        if i >= letters {
            slot[2..5].copy_from_slice(&[id, component, 2]);
        } else if i != end {
            slot[5] = 2;
            slot[6..8].copy_from_slice(&chain.to_be_bytes());
        }
    }
    if kind == MARK_MARK {
        stacks::on_letters(&mut call, letters);
    }
    call
}

const LABELS: usize = 6 * 3 * 3 * 2 * 16 * 4;

/// A call on a line of n bytes: whole slots, and zeros behind them.
fn of_length(kind: usize, form: usize, n: usize) -> Call {
    let mut call = plain(kind, form, n / form);
    call.line.resize(n, 0);
    call
}

/// Every length up to four slots with a cluster and a byte, 168, which is whole slots in either form, and those around the limit of each form.
pub fn lengths(kind: usize, form: usize, number: usize) -> Call {
    let n = match number {
        0..=113 => number,
        114 => 168,
        115..=195 => 24540 + number - 115,
        _ => 28630 + number - 196,
    };
    of_length(kind, form, n)
}
pub const LENGTHS: usize = 114 + 1 + 81 + 81;

/// Every value of the bytes 2 to 5 of a slot.
pub fn bytes(kind: usize, form: usize, mut number: usize) -> Call {
    let mut call = plain(kind, form, 3);
    let value = digit(&mut number, 256) as u8;
    let byte = 2 + digit(&mut number, 4);
    call.slot(digit(&mut number, 3))[byte] = value;
    call
}
pub const BYTES: usize = 256 * 4 * 3;

/// Every size that there isn't, on a line that is good but for it, or whose length is whole slots of a form or at a form's limit; alone, and with causes of refusals that
/// come later.
fn sizes(kind: usize, form: usize, mut number: usize) -> Call {
    let size = WRONG_SIZES[digit(&mut number, WRONG_SIZES.len())];
    // what is left of the size where it is cut
    let low = if size as u8 == 0 { form } else { (size as u8).into() };
    let mut call = match digit(&mut number, 11) {
        k @ 0..=3 => plain(kind, low, [0, 2, 3, 7][k]),
        k => of_length(kind, form, [24, 28, 168, 24_576, 24_600, 28_672, 28_700][k - 4]),
    };
    call.size = size;
    match digit(&mut number, 3) {
        1 => (call.direction, call.limit, call.s) = (4, 65, 0),
        2 => call.line.iter_mut().for_each(|b| *b = 255),
        _ => {}
    }
    call
}

/// Each argument at its ends.
fn ends(kind: usize, form: usize, mut number: usize) -> Call {
    const SCALE_S: [u32; 10] = [0, 1, 2, 500, 32767, 32768, 32769, 65536, 1 << 31, u32::MAX];
    const SCALE_U: [u32; 10] = [0, 15, 16, 17, 1000, 16383, 16384, 16385, 1 << 31, u32::MAX];
    const PLACES: [u64; 10] = [0, 1, 2, 3, 4, 5, 255, 1 << 32, 1 << 63, u64::MAX];
    let mut call = plain(kind, form, 4);
    call.direction = digit(&mut number, 4) as u32;
    call.lookup_flag = digit(&mut number, 2) as u32;
    let k = digit(&mut number, 100);
    match digit(&mut number, 5) {
        0 => {
            call.s = SCALE_S[k % 10];
            call.u = SCALE_U[k / 10];
        }
        1 => {
            call.limit = k as u32;
            call.attachments = [0, 1, 2, 1 << 31][k % 4];
        }
        2 => call.direction = [0, 1, 2, 3, 4, 5, 7, 256, 1 << 31, u32::MAX][k % 10],
        which => {
            call.missing = which as u32 - 3;
            call.index = PLACES[k % 10];
            call.neighbour = PLACES[k / 10];
        }
    }
    call
}

/// Every mixture of the causes of refusals 1 to 6, each in three ways.
fn refusals(kind: usize, form: usize, mut number: usize) -> Call {
    let mut call = plain(kind, form, 3);
    let causes = digit(&mut number, 64);
    let way = digit(&mut number, 3);
    let has = |k: usize| causes >> k & 1 == 1;
    if has(1) {
        call.direction = [4, 255, u32::MAX][way];
    }
    if has(2) {
        call.limit = [65, 100, u32::MAX][way];
        (call.s, call.u) = [(0, 1000), (32769, 15), (1000, 16385)][way];
    }
    if has(3) {
        call.slot(way)[2 + way] = [8, 16, 8][way];
    }
    if has(4) {
        call.index = [3, 4, u64::MAX][way];
    }
    if has(5) {
        call.subtable = [vec![], vec![0, 9, 0, 0, 0, 0, 0, 0, 0, 0, 0, 0, 0, 0, 0, 0], vec![0; 65537]][way].clone();
    }
    if has(0) {
        call.line.extend(vec![0; [1, form - 1, 1025 * form][way]]);
    }
    call
}

const CUT: usize = 200;

/// A good subtable cut at each byte.
fn cuts(kind: usize, form: usize, mut number: usize) -> Call {
    let at = digit(&mut number, CUT);
    let mut call = varied(kind, form, number);
    call.subtable.truncate(at);
    call
}

/// A good subtable with one bit changed.
fn bits(kind: usize, form: usize, mut number: usize) -> Call {
    let bit = digit(&mut number, 8);
    let at = digit(&mut number, CUT);
    let mut call = varied(kind, form, number);
    if let Some(b) = call.subtable.get_mut(at) {
        *b ^= 1 << bit;
    }
    call
}

/// Subtables as long as is allowed, and a byte longer: a coverage of many glyphs, or a good subtable with zeros after it.
fn long_tables(kind: usize, form: usize, mut number: usize) -> Call {
    let len = [65534, 65535, 65536, 65537, 70000][digit(&mut number, 5)];
    let mut call = varied(kind, form, number);
    call.subtable.resize(len, 0);
    call
}

/// The sets of a kind.
pub fn sets(kind: usize) -> Vec<Set> {
    if is_move(kind) {
        return moves::sets(kind);
    }
    let short = 343 * 64;
    let mut all = vec![
        Set { name: "lengths", count: LENGTHS, make: lengths },
        Set { name: "bytes", count: BYTES, make: bytes },
        Set { name: "sizes", count: WRONG_SIZES.len() * 11 * 3, make: sizes },
        Set { name: "ends", count: 8 * 100 * 5, make: ends },
        Set { name: "refusals", count: 64 * 3, make: refusals },
    ];
    match kind {
        START => all.push(Set { name: "short lines", count: short, make: chains }),
        FINISH => all.push(Set { name: "short lines", count: short * 4 * 4, make: chains }),
        CURSIVE => all.push(Set { name: "short lines", count: short * 4 * 2 * 3, make: chains }),
        MARK_BASE | MARK_LIGATURE => {
            all.push(Set { name: "short lines", count: short * 4 * 2, make: chains });
            all.push(Set { name: "labels", count: LABELS, make: labels });
        }
        MARK_MARK => {
            all.push(Set { name: "short lines", count: short * 4 * 3, make: chains });
            all.push(Set { name: "labels", count: LABELS, make: labels });
            all.extend(stacks::sets());
        }
        _ => {}
    }
    if kind >= SINGLE {
        all.push(Set { name: "subtables cut", count: CUT * 60, make: cuts });
        all.push(Set { name: "subtables with a bit changed", count: CUT * 8 * 40, make: bits });
        all.push(Set { name: "long subtables", count: 5 * 8, make: long_tables });
    }
    all
}

/// A call of a set, in slots of a form.
pub fn made(set: &Set, kind: usize, form: usize, number: usize) -> Call {
    let mut call = (set.make)(kind, form, number);
    scatter_clusters(&mut Rng::new(number as u64), &mut call);
    call
}

/// A random call: most are good, some have a few faults, some have many.
pub fn random(r: &mut Rng, kind: usize) -> Call {
    let odds = r.pick(&[1000, 60, 60, 25, 25, 6]);
    let mut call = arguments(r, kind, odds);
    if is_move(kind) {
        return moves::random(r, call, odds);
    }
    call.subtable = subtable(r, kind, odds);
    damage(r, &mut call.subtable, odds);
    call
}
