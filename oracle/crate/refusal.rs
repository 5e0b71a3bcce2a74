//! Refusals 1 to 6, written for themselves from docs/RULES.md: the crate has none.
use crate::frame::*;
use crate::ot::apply::Neighbour;

fn list_ok(t: &[u8], is_class: bool) -> bool {
    if t.len() < 2 {
        return false;
    }
    let format = be16(t, 0);
    let (header, size) = match (format, is_class) {
        (1, false) => (4, 2),
        (1, true) => (6, 2),
        (2, _) => (4, 6),
        _ => return false,
    };
    if t.len() < header {
        return false;
    }
    let n = be16(t, header - 2) as usize;
    if header + n * size > t.len() {
        return false;
    }
    if format == 1 && is_class {
        return true;
    }
    let mut floor = 0u32;
    for k in 0..n {
        let first = u32::from(be16(t, header + k * size));
        let last = if format == 1 { first } else { u32::from(be16(t, header + k * size + 2)) };
        if first < floor || last < first {
            return false;
        }
        floor = last + 1;
    }
    true
}

fn list_at_ok(subtable: &[u8], at: usize, is_class: bool) -> bool {
    let off = be16(subtable, at) as usize;
    off == 0 || subtable.get(off..).is_some_and(|t| list_ok(t, is_class))
}

fn subtable_ok(kind: u8, subtable: &[u8]) -> bool {
    if subtable.len() > 65_536 || subtable.len() < 2 {
        return false;
    }
    let format = be16(subtable, 0);
    let header = match (kind, format) {
        (SINGLE, 1) => 6,
        (SINGLE, 2) => 8,
        (PAIR, 1) => 10,
        (PAIR, 2) => 16,
        (CURSIVE, 1) => 6,
        (MARK_BASE | MARK_LIGATURE | MARK_MARK, 1) => 12,
        _ => return false,
    };
    if subtable.len() < header {
        return false;
    }
    if matches!(kind, SINGLE | PAIR) && be16(subtable, 4) > 255 {
        return false;
    }
    if kind == PAIR && be16(subtable, 6) > 255 {
        return false;
    }
    list_at_ok(subtable, 2, false)
        && match kind {
            PAIR if format == 2 => list_at_ok(subtable, 8, true) && list_at_ok(subtable, 10, true),
            MARK_BASE | MARK_LIGATURE | MARK_MARK => list_at_ok(subtable, 4, false),
            _ => true,
        }
}

fn index_ok(r: &Request, slots: usize) -> bool {
    r.index < slots
        && match (r.kind, r.neighbour) {
            (PAIR, Neighbour::At(j)) => j > r.index && j < slots,
            (CURSIVE | MARK_MARK, Neighbour::At(j)) => j < r.index,
            (PAIR | CURSIVE | MARK_MARK, Neighbour::Missing(bound)) => bound <= slots,
            _ => true,
        }
}

/// Is the line up to 1,024 whole slots of this size, and is there such a size?
pub fn line_ok(line: &[u8], size: usize) -> bool {
    matches!(size, 24 | 28) && line.len() % size == 0 && line.len() / size <= 1024
}

pub fn slots_ok(line: &[u8], size: usize) -> bool {
    line.chunks_exact(size).all(|s| s[2] <= 7 && s[3] <= 15 && s[4] <= 7)
}

/// The number of the refusal, or 0, of a call that is no move.
pub fn refusal(r: &Request) -> u64 {
    if !line_ok(r.line, r.size) {
        return 1;
    }
    if r.kind != START && r.direction > 3 {
        return 2;
    }
    if r.kind == FINISH && r.limit > 64 {
        return 3;
    }
    if r.kind >= SINGLE && !((1..=32_768).contains(&r.s) && (16..=16_384).contains(&r.u)) {
        return 3;
    }
    if !slots_ok(r.line, r.size) {
        return 4;
    }
    if r.kind >= SINGLE && !index_ok(r, r.line.len() / r.size) {
        return 5;
    }
    if r.kind >= SINGLE && !subtable_ok(r.kind, r.subtable) {
        return 6;
    }
    0
}
