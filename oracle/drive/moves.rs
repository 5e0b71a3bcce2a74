//! Calls that move a line from one form to the other.
use crate::call::*;
use crate::rng::Rng;
use crate::sets::{bytes, digit, lengths, plain, Set, BYTES, LENGTHS};

/// Lends a target of so many bytes; their values are seldom what is moved there.
fn lend(call: &mut Call, len: usize) {
    call.subtable = (0..len).map(|k| (k * 37 + 145) as u8).collect();
}

/// A move with a target as long as the moved line; any other call as it is.
pub fn fitted(mut call: Call) -> Call {
    if is_move(call.kind) {
        let len = call.slots() * call.written().1;
        lend(&mut call, len);
    }
    call
}

/// Targets of the right length, and of wrong ones: a byte, a cluster or a slot off, empty, as long as the line, twice as long.
fn targets(kind: usize, form: usize, mut number: usize) -> Call {
    let mut call = plain(kind, form, [0, 1, 2, 3, 7, 24, 1023, 1024][digit(&mut number, 8)]);
    let (right, line, slot) = (call.subtable.len(), call.line.len(), call.written().1);
    let lengths = [right, right + 1, right + 4, right + slot, 2 * right, line, 0, right.saturating_sub(1), right.saturating_sub(4), right.saturating_sub(slot)];
    lend(&mut call, lengths[digit(&mut number, 10)]);
    call
}

/// Clusters of which one has a bit changed, is off by one or by 256, or has its bytes in the other order, or of which all are off by one.
fn clusters(kind: usize, form: usize, mut number: usize) -> Call {
    let n = [1, 2, 3, 7, 300, 1024][digit(&mut number, 6)];
    let mut call = plain(kind, form, n);
    let wrong = [0, n / 2, n - 1][digit(&mut number, 3)];
    let way = digit(&mut number, 38);
    for (i, slot) in call.each_slot().enumerate() {
        let right = i as u32;
        let cluster = match way {
            0..=31 => right ^ 1 << way,
            32 => right + 1,
            33 => right.wrapping_sub(1),
            34 => right + 256,
            35 => right.swap_bytes(),
            36 => right - u32::from(i > 0),
            _ => right + 1,
        };
        if i == wrong || way >= 36 {
            slot[24..].copy_from_slice(&cluster.to_be_bytes());
        }
    }
    call
}

/// Every mixture of the causes of refusals 1, 4 and 10, each in three ways.
fn refusals(kind: usize, form: usize, mut number: usize) -> Call {
    let mut call = plain(kind, form, 3);
    let causes = digit(&mut number, 16);
    let way = digit(&mut number, 3);
    let has = |k: usize| causes >> k & 1 == 1;
    let right = call.subtable.len();
    if has(1) {
        call.slot(way)[2 + way] = [8, 16, 8][way];
    }
    if has(2) {
        lend(&mut call, [0, right - 1, right + 1][way]);
    }
    if has(3) && kind == FROM_CLUSTERS {
        call.slot(way)[24 + way] = 9;
    }
    if has(0) {
        call.line.extend(vec![0; [1, form - 1, 1025 * form][way]]);
    }
    call
}

/// The sets of a kind that is a move.
pub fn sets(kind: usize) -> Vec<Set> {
    let mut all = vec![
        Set { name: "lengths", count: LENGTHS, make: lengths },
        Set { name: "bytes", count: BYTES, make: bytes },
        Set { name: "targets", count: 8 * 10, make: targets },
        Set { name: "refusals", count: 16 * 3, make: refusals },
    ];
    if kind == FROM_CLUSTERS {
        all.push(Set { name: "clusters", count: 6 * 3 * 38, make: clusters });
    }
    all
}

/// A random move, of a line whose clusters are its slots' numbers.
pub fn random(r: &mut Rng, mut call: Call, odds: usize) -> Call {
    if call.kind == FROM_CLUSTERS && call.slots() > 0 && r.once_in(odds) {
        let i = r.below(call.slots());
        let right = i as u32;
        let wrong = r.pick(&[right + 1, right.wrapping_sub(1), right + 256, right.swap_bytes(), 0, u32::MAX]);
        call.slot(i)[24..].copy_from_slice(&wrong.to_be_bytes());
    }
    let mut call = fitted(call);
    call.subtable.iter_mut().for_each(|b| *b = r.next() as u8);
    if r.once_in(odds) {
        let (right, slot) = (call.subtable.len(), call.written().1);
        call.subtable.resize(r.pick(&[right + 1, right + 4, right + slot, right.saturating_sub(1), right.saturating_sub(slot), 0]), 0);
    }
    call
}
