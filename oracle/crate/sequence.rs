//! Several calls on one line, one after another: each is answered as a call by itself is, on the line that those
//! before it left. README.md has the bytes.
use crate::buffer::Buffer;
use crate::frame::*;
use crate::ot::apply::Neighbour;
use crate::serve::{answer, NOTHING};

/// The bytes of a request before its tables, and of a call.
const HEADER: usize = 36;
const CALL: usize = 16;

/// Numbers of 32 bits from a place on.
fn numbers(b: &[u8], at: usize, count: usize) -> Vec<usize> {
    (0..count).map(|k| be32(b, at + 4 * k) as usize).collect()
}

/// Parts that lie end to end, by their lengths.
fn parts<'a>(mut b: &'a [u8], lens: &[usize]) -> Vec<&'a [u8]> {
    let mut out = vec![];
    for n in lens {
        let (part, rest) = b.split_at(*n);
        out.push(part);
        b = rest;
    }
    assert!(b.is_empty());
    out
}

/// The first call, by its numbers: subtable, index, whether the neighbour is missing, neighbour.
fn call<'a>(b: &'a [u8], numbers: &[usize], subtables: &[&'a [u8]], line: &'a [u8]) -> Request<'a> {
    let near = numbers[3];
    Request {
        kind: b[1],
        direction: be32(b, 4),
        s: be32(b, 8),
        u: be32(b, 12),
        limit: 0,
        attachments: false,
        neighbour: if numbers[2] == 0 { Neighbour::At(near) } else { Neighbour::Missing(near) },
        lookup_flag: be32(b, 16),
        size: be32(b, 32) as usize,
        index: numbers[1],
        line,
        subtable: subtables[numbers[0]],
    }
}

/// Passed over are calls below the index at which an applied one said to go on, and all behind a refused one.
pub fn sequence(b: &[u8], buffer: &mut Buffer, out: &mut Vec<u8>) {
    let [line_len, subtable_count, call_count] = [20, 24, 28].map(|at| be32(b, at) as usize);
    let lens = numbers(b, HEADER, subtable_count);
    let calls = HEADER + 4 * subtable_count;
    let bytes = calls + CALL * call_count;
    let mut line = b[bytes..bytes + line_len].to_vec();
    let subtables = parts(&b[bytes + line_len..], &lens);
    let (mut from, mut memory, mut one) = (0, NOTHING, vec![]);
    for k in 0..call_count {
        let numbers = numbers(b, calls + CALL * k, 4);
        if numbers[1] < from {
            out.extend(NOT_MADE.to_be_bytes());
            out.extend([0; SAID - 8]);
            continue;
        }
        if b[2] == 0 {
            memory = NOTHING;
        }
        one.clear();
        answer(&call(b, &numbers, &subtables, &line), buffer, &mut memory, &mut one);
        out.extend(&one[..SAID]);
        line.copy_from_slice(&one[SAID..]);
        match be64(&one, 0) {
            APPLIED => from = be64(&one, 32) as usize,
            REFUSED => from = usize::MAX,
            _ => {}
        }
    }
    out.extend(line);
}
