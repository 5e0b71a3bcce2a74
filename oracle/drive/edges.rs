//! Starting at the limits of lines and of slots' fields, and single adjustment by value records of every size, at the ends of 32 bits and at ties of the scale.
use crate::call::*;
use crate::groups::{covering, cut_each, group, laid, of_glyph, on, single_by, Group};
use crate::lines::Slot;
use crate::tables::words;

/// So many bytes, in slots of a size, rightly or not: every slot is a mark on the one before.
fn start_bytes((bytes, size): (usize, u64)) -> Call {
    let mut call = Call { line: vec![0; bytes], size, ..on(START, &[], vec![]) };
    call.each_slot().for_each(|s| s[5..8].copy_from_slice(&[1, 255, 255]));
    call
}

/// Lengths at and past the limit of either form, whole in both, uneven, and sizes that there aren't. 24,576 and 24,600 in slots of 24 are worked sums.
const STARTS: [(usize, u64); 10] = [(0, 24), (24, 24), (25, 24), (28_672, 28), (28_700, 28), (24_576, 28), (168, 24), (168, 28), (52, 26), (0, 0)];

/// A line of two slots, of which the second has a value in a byte.
fn start_with((byte, value): (usize, u8)) -> Call {
    let mut call = on(START, &[Slot::default(); 2], vec![]);
    call.slot(1)[byte] = value;
    call
}

/// The most that ligature id, component and flags take, and one more; and a type, which takes all.
const FIELDS: [(usize, u8); 7] = [(2, 7), (2, 8), (3, 15), (3, 16), (4, 7), (4, 8), (5, 255)];

/// A base, and two marks attached to the slot before.
fn start_attached() -> Call {
    let mark = |glyph| Slot { kind: 1, chain: -1, ..of_glyph(glyph) };
    on(START, &[Slot::default(), mark(500), mark(501)], vec![])
}

/// Glyph 7 adjusted by a subtable.
fn single(slot: Slot, subtable: Vec<u8>) -> Call {
    on(SINGLE, &[slot], subtable)
}

fn in_directions(directions: &[u32], call: Call) -> Vec<Call> {
    directions.iter().map(|d| Call { direction: *d, ..call.clone() }).collect()
}

/// The subtables of P2, P3 and P4 in the directions that the worked sums leave out.
fn other_directions() -> Vec<Call> {
    let p2 = single(of_glyph(7), single_by(5, &[-10, 20]));
    let [p3, p4] = [4, 8].map(|format| single(of_glyph(7), single_by(format, &[20])));
    [in_directions(&[1, 3], p2), in_directions(&[0, 1, 3], p3), in_directions(&[0, 1, 3], p4)].concat()
}

/// Sums past the ends of 32 bits: x offset and x advance by 32,767 up; x offset by 32,768 and y advance by 32,767 down.
fn past_ends() -> Vec<Call> {
    let at = |n: i32| Slot { measures: [n, n, n, 0], ..of_glyph(7) };
    let up = single(at(2_147_483_000), single_by(5, &[i16::MAX, i16::MAX]));
    let down = single(at(-2_147_482_648), single_by(9, &[i16::MIN, i16::MAX]));
    [up, down].map(|call| in_directions(&[0, 1, 2, 3], call)).concat()
}

/// Value format 0, which has no field, 256, which there isn't, and 255, which has all eight: its record takes the bytes to the end, and the coverage's too.
fn formats() -> Vec<Call> {
    let eight_fields = words(&[1, 8, 255, 9, 1, 1, 7, 0, 0, 0, 0]);
    let mut calls: Vec<Call> = [0, 256].map(|format| single(of_glyph(7), single_by(format, &[]))).into();
    calls.extend(cut_each(&single(of_glyph(7), eight_fields)));
    calls
}

/// One record, for glyph 7; glyph 8 is covered too, glyph 9 is not.
fn at_the_count() -> Vec<Call> {
    let subtable = laid(words(&[2, 0, 4, 1, 20]), &[(2, covering(&[7, 8]))]);
    [7, 8, 9].map(|glyph| single(of_glyph(glyph), subtable.clone())).into()
}

/// s, u and a value that lies half way between two whole numbers; at the last, whose u is odd, none does, and the value is beside where one would.
const TIES: [(u32, u32, i16); 6] = [(500, 1000, 3), (1, 16, 24), (3, 16, 8), (1, 16384, 8192), (32767, 16384, 8192), (1, 17, 8)];

/// Ties, the values beside them, and all of these negated.
fn at_ties() -> Vec<Call> {
    let scaled = |s, u, value| Call { s, u, ..single(of_glyph(7), single_by(4, &[value])) };
    TIES.iter().flat_map(|(s, u, v)| [v - 1, *v, v + 1, 1 - v, -v, -v - 1].map(|value| scaled(*s, *u, value))).collect()
}

pub fn groups() -> Vec<Group> {
    vec![
        group("starting: lengths and sizes", STARTS.map(start_bytes).into()),
        group("starting: fields at the ends of their ranges", FIELDS.map(start_with).into()),
        group("starting: old attachments", vec![start_attached()]),
        group("single: the worked records in other directions", other_directions()),
        group("single: sums past the ends of 32 bits", past_ends()),
        group("single: values at ties of the scale and beside them, of either sign", at_ties()),
        group("single: value formats 0, 256, and 255 cut at every byte", formats()),
        group("single: index below the count, at it, glyph not covered", at_the_count()),
    ]
}
