//! Calls that are made one by one for the list that `replay` runs, in groups with a name, and what they are made of: short lines in slots of 24 bytes, and small
//! subtables that are written out.
use crate::call::*;
use crate::lines::{push, Slot};
use crate::tables::words;
use crate::{anchors, edges, glyph_lists, long_lines, stacks};

/// Calls on one subject.
pub struct Group {
    pub name: String,
    pub calls: Vec<Call>,
}

pub fn group(name: &str, calls: Vec<Call>) -> Group {
    Group { name: name.into(), calls }
}

/// Every group, in the order of the list.
pub fn groups() -> Vec<Group> {
    let mut all = long_lines::groups();
    all.extend(glyph_lists::groups());
    all.extend(anchors::groups());
    all.extend(stacks::groups());
    all.extend(edges::groups());
    all
}

/// A call on these slots, in direction 0 and at a scale of one to one. It is made for the last slot, with the one before it as its neighbour; a pair's, for the
/// last but one and the last.
pub fn on(kind: usize, slots: &[Slot], subtable: Vec<u8>) -> Call {
    let mut line = vec![];
    for slot in slots {
        push(&mut line, FORMS[0], *slot);
    }
    let last = slots.len().saturating_sub(1) as u64;
    let before = last.saturating_sub(1);
    let (index, neighbour) = if kind == PAIR { (before, last) } else { (last, before) };
    Call { kind, s: 1000, u: 1000, limit: 64, attachments: 1, size: FORMS[0] as u64, index, neighbour, line, subtable, ..Call::default() }
}

/// A slot of a glyph, all else 0.
pub fn of_glyph(glyph: u16) -> Slot {
    Slot { glyph, ..Slot::default() }
}

/// The call with its subtable cut at each byte, and whole.
pub fn cut_each(call: &Call) -> Vec<Call> {
    let mut calls = vec![];
    for n in 0..=call.subtable.len() {
        calls.push(Call { subtable: call.subtable[..n].to_vec(), ..call.clone() });
    }
    calls
}

/// A parent and its tables behind it in this order, with the offset of each written into the parent at the place that stands with it.
pub fn laid(parent: Vec<u8>, tables: &[(usize, Vec<u8>)]) -> Vec<u8> {
    let mut out = parent;
    for (at, table) in tables {
        let place = out.len() as u16;
        out[*at..at + 2].copy_from_slice(&place.to_be_bytes());
        out.extend(table);
    }
    out
}

pub fn covering(glyphs: &[u16]) -> Vec<u8> {
    [words(&[1, glyphs.len() as u16]), words(glyphs)].concat()
}

pub fn anchor_at(x: i16, y: i16) -> Vec<u8> {
    words(&[1, x as u16, y as u16])
}

/// Single adjustment of glyph 7 by one value record.
pub fn single_by(format: u16, record: &[i16]) -> Vec<u8> {
    let values: Vec<u16> = record.iter().map(|v| *v as u16).collect();
    laid(words(&[&[1, 0, format], &values[..]].concat()), &[(2, covering(&[7]))])
}

/// Rows of anchors, a row for each base, component or earlier mark and an anchor for each class of marks.
pub fn rows_of(rows: &[&[(i16, i16)]]) -> Vec<u8> {
    let points = rows.concat();
    let tables: Vec<_> = points.iter().enumerate().map(|(k, (x, y))| (2 + 2 * k, anchor_at(*x, *y))).collect();
    laid(words(&[&[rows.len() as u16], &vec![0; points.len()][..]].concat()), &tables)
}

/// A mark array: each mark has a class and an anchor.
pub fn marks_of(marks: &[(u16, i16, i16)]) -> Vec<u8> {
    let mut parent = vec![marks.len() as u16];
    marks.iter().for_each(|(class, ..)| parent.extend([*class, 0]));
    let tables: Vec<_> = marks.iter().enumerate().map(|(k, (_, x, y))| (4 + 4 * k, anchor_at(*x, *y))).collect();
    laid(words(&parent), &tables)
}
