//! The moves between lines of 24-byte slots and of 28, written for themselves: the crate has none.
use crate::frame::*;
use crate::refusal::{line_ok, slots_ok};

/// The target afterwards, or the number of the refusal.
pub fn moved(r: &Request) -> Result<Vec<u8>, u64> {
    let (from, to) = if r.kind == TO_CLUSTERS { (24, 28) } else { (28, 24) };
    if !line_ok(r.line, from) {
        return Err(1);
    }
    if !slots_ok(r.line, from) {
        return Err(4);
    }
    if r.subtable.len() != r.line.len() / from * to {
        return Err(10);
    }
    let mut target = vec![];
    for (k, slot) in r.line.chunks_exact(from).enumerate() {
        let (fields, cluster) = slot.split_at(24);
        let number = (k as u32).to_be_bytes();
        target.extend(fields);
        if r.kind == TO_CLUSTERS {
            target.extend(number);
        } else if *cluster != number {
            return Err(10);
        }
    }
    Ok(target)
}
