//! The bytes of requests and answers; README.md has the table.
use crate::ot::apply::Neighbour;

pub const START: u8 = 0;
pub const FINISH: u8 = 1;
pub const SINGLE: u8 = 2;
pub const PAIR: u8 = 3;
pub const CURSIVE: u8 = 4;
pub const MARK_BASE: u8 = 5;
pub const MARK_LIGATURE: u8 = 6;
pub const MARK_MARK: u8 = 7;
pub const TO_CLUSTERS: u8 = 8;
pub const FROM_CLUSTERS: u8 = 9;
/// Several calls on one line. (10 is a run, which the port alone answers.)
pub const SEQUENCE: u8 = 11;
/// Asks which kinds are answered.
pub const KINDS: u8 = 255;

pub const DONE: u64 = 0;
pub const APPLIED: u64 = 1;
pub const DECLINED: u64 = 2;
pub const REFUSED: u64 = 3;
/// Of a call in a sequence: it was passed over.
pub const NOT_MADE: u64 = 4;

/// The bytes of an answer before its line.
pub const SAID: usize = 96;

/// One request.
pub struct Request<'a> {
    pub kind: u8,
    pub direction: u32,
    pub s: u32,
    pub u: u32,
    pub limit: u32,
    pub attachments: bool,
    pub neighbour: Neighbour,
    pub lookup_flag: u32,
    /// The bytes of a slot.
    pub size: usize,
    pub index: usize,
    pub line: &'a [u8],
    /// The subtable; of a move, the target as lent.
    pub subtable: &'a [u8],
}

pub fn be16(b: &[u8], at: usize) -> u16 {
    u16::from_be_bytes(b[at..at + 2].try_into().unwrap())
}
pub fn be32(b: &[u8], at: usize) -> u32 {
    u32::from_be_bytes(b[at..at + 4].try_into().unwrap())
}
pub fn be64(b: &[u8], at: usize) -> u64 {
    u64::from_be_bytes(b[at..at + 8].try_into().unwrap())
}

pub fn parse(b: &[u8]) -> Request<'_> {
    let n = be32(b, 56) as usize;
    let m = be32(b, 60) as usize;
    assert_eq!(b.len(), 64 + n + m);
    let near = be64(b, 48) as usize;
    Request {
        kind: b[0],
        direction: be32(b, 4),
        s: be32(b, 8),
        u: be32(b, 12),
        limit: be32(b, 16),
        attachments: be32(b, 20) != 0,
        neighbour: if be32(b, 24) == 0 { Neighbour::At(near) } else { Neighbour::Missing(near) },
        lookup_flag: be32(b, 28),
        size: be64(b, 32) as usize,
        index: be64(b, 40) as usize,
        line: &b[64..64 + n],
        subtable: &b[64 + n..],
    }
}

/// What a call says.
#[derive(Default)]
pub struct Said<'a> {
    pub status: u64,
    pub refusal: u64,
    pub attached: bool,
    pub next: usize,
    /// (is it a concat?, start, end)
    pub hazards: &'a [(u8, usize, usize)],
}

/// The refusal with this number.
pub fn refused(number: u64) -> Said<'static> {
    Said { status: REFUSED, refusal: number, ..Said::default() }
}

/// Writes what a call says, and the line afterwards; of a move, the target.
pub fn write(out: &mut Vec<u8>, said: Said, after: &[u8]) {
    let mut put = |v: u64| out.extend(v.to_be_bytes());
    put(said.status);
    put(said.refusal);
    put(said.attached.into());
    put(said.hazards.len() as u64);
    put(said.next as u64);
    for k in 0..2 {
        let (kind, start, end) = said.hazards.get(k).map_or((0, 0, 0), |h| (u64::from(h.0) + 1, h.1 as u64, h.2 as u64));
        put(kind);
        put(start);
        put(end);
    }
    put(0); // nothing lent was harmed
    out.extend(after);
}
