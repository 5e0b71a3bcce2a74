//! Runs of a lookup over a line: a run, its answer, and their frames (README.md has the bytes).
pub mod compare;
pub mod made;
pub mod model;
pub mod planted;
pub mod random;
pub mod record;
pub mod sequence;
pub mod shrink;

use crate::call::*;
use crate::sides::Asked;

#[derive(Clone, PartialEq, Default)]
pub struct Run {
    /// OpenType's, rightly or not.
    pub lookup_type: u32,
    pub lookup_flag: u32,
    pub direction: u32,
    pub s: u32,
    pub u: u32,
    /// The bytes of a slot, rightly or not.
    pub size: u64,
    /// Of the list.
    pub places: usize,
    pub line: Vec<u8>,
    /// The subtables, end to end.
    pub subtables: Vec<u8>,
    /// Their lengths, rightly or not: as many as there are said to be.
    pub lens: Vec<u64>,
}

/// The request's first byte, and its bytes before the lengths.
const KIND: u8 = 10;
const HEADER: usize = 56;

/// The most subtables.
pub const MOST: usize = 8;

/// The kind of call that a lookup of this type makes.
pub fn kind_of(lookup_type: u32) -> Option<usize> {
    (1..=6).contains(&lookup_type).then_some(lookup_type as usize + 1)
}

pub fn type_of(kind: usize) -> u32 {
    kind as u32 - 1
}

impl Run {
    /// A call of the kind with the arguments that both have, but without the line.
    pub fn arguments(&self, kind: usize) -> Call {
        let (direction, s, u, lookup_flag, size) = (self.direction, self.s, self.u, self.lookup_flag, self.size);
        Call { kind, direction, s, u, lookup_flag, size, ..Call::default() }
    }
    pub fn form(&self) -> usize {
        FORMS.into_iter().find(|f| *f as u64 == self.size).unwrap_or(NO_FORM)
    }
    /// The bytes by which the line is taken apart: 24 also where the size is no form's.
    pub fn stride(&self) -> usize {
        self.size.clamp(FORMS[0] as u64, FORMS[1] as u64) as usize
    }
    pub fn slots(&self) -> usize {
        self.line.len() / self.stride()
    }
    pub fn is_seen(&self, slot: usize) -> bool {
        self.line[self.stride() * slot + 4] & 1 == 1
    }
    /// As many places as the run must have.
    pub fn exact_places(&self) -> usize {
        2 * self.slots() * self.lens.len()
    }
    /// Do the lengths add up to the buffer's, as exact numbers?
    pub fn adds_up(&self) -> bool {
        self.lens.iter().map(|n| u128::from(*n)).sum::<u128>() == self.subtables.len() as u128
    }
    /// The subtable of this number, where lengths add up.
    pub fn part(&self, number: usize) -> &[u8] {
        let from: u64 = self.lens[..number].iter().sum();
        &self.subtables[from as usize..(from + self.lens[number]) as usize]
    }
    /// Every subtable, where lengths add up.
    pub fn parts(&self) -> Vec<Vec<u8>> {
        (0..self.lens.len()).map(|k| self.part(k).to_vec()).collect()
    }
    pub fn set_parts(&mut self, parts: &[Vec<u8>]) {
        self.subtables = parts.concat();
        self.lens = parts.iter().map(|t| t.len() as u64).collect();
    }
    pub fn describe(&self) -> String {
        let mut t = format!("a lookup of type {}, flag {}", self.lookup_type, self.lookup_flag);
        t += &format!(", on {} bytes of line, in slots of {}", self.line.len(), self.size);
        t += &format!(", direction {}, s {}, u {}", self.direction, self.s, self.u);
        t + &format!(", subtables of {:?} in {} bytes, {} places", self.lens, self.subtables.len(), self.places)
    }
    pub fn parse(b: &[u8]) -> Option<Self> {
        if b.len() < HEADER || b[0] != KIND {
            return None;
        }
        let n32 = |at: usize| be(&b[at..at + 4]) as u32;
        let (n, m, count) = (n32(24) as usize, n32(28) as usize, be(&b[40..48]) as usize);
        let line = HEADER + 8 * count;
        (b.len() == line + n + m).then(|| Self {
            direction: n32(4),
            s: n32(8),
            u: n32(12),
            lookup_type: n32(16),
            lookup_flag: n32(20),
            size: be(&b[32..40]),
            places: be(&b[48..56]) as usize,
            lens: b[HEADER..line].chunks(8).map(be).collect(),
            line: b[line..line + n].to_vec(),
            subtables: b[line + n..].to_vec(),
        })
    }
}

/// The bytes of one place.
pub const PLACE: usize = 24;

/// A list as it is lent: it holds something everywhere, so that a place that is written shows.
pub fn lent_list(places: usize) -> Vec<u8> {
    (0..PLACE * places).map(|k| (145 + 37 * k) as u8).collect()
}

/// Writes a hazard (kind, start, end) to a place, as the library has it in memory.
pub fn put_hazard(place: &mut [u8], hazard: [u64; 3]) {
    place[..8].copy_from_slice(&hazard[0].to_le_bytes());
    place[8..16].copy_from_slice(&hazard[1].to_le_bytes());
    place[16..].copy_from_slice(&hazard[2].to_le_bytes());
}

/// What a run leaves.
#[derive(Clone, PartialEq)]
pub struct Ran {
    pub refusal: u64,
    pub attached: u64,
    pub index: u64,
    pub count: u64,
    /// 1 if a guard, or what is only to be read, was changed, 2 if the program died
    pub harm: u64,
    pub line: Vec<u8>,
    /// Every byte of the list; but the padding of a hazard that was stored is 0.
    pub list: Vec<u8>,
}

impl Ran {
    pub fn place(&self, k: usize) -> &[u8] {
        &self.list[PLACE * k..PLACE * (k + 1)]
    }
    /// The number of places of the list that are written.
    pub fn written(&self) -> usize {
        (self.count as usize).min(self.list.len() / PLACE)
    }
    /// The hazards that were stored.
    pub fn hazards(&self) -> Vec<[u64; 3]> {
        let number = |p: &[u8], at: usize| u64::from_le_bytes(p[at..at + 8].try_into().unwrap());
        (0..self.written()).map(|k| [0, 8, 16].map(|at| number(self.place(k), at))).collect()
    }
    pub fn outcome(&self) -> String {
        match (self.harm, self.refusal) {
            (2, _) => "died".into(),
            (_, 0) => if self.attached == 1 { "done, attached" } else { "done" }.into(),
            (_, 7) => "stopped".into(),
            (_, n) => format!("refused {n}"),
        }
    }
    /// What differs first, in words, on a line that has slots of so many bytes.
    pub fn difference(&self, other: &Self, slot: usize) -> Option<String> {
        let words = ["refusal", "attached", "index", "count", "harm to what was lent"];
        let numbers = |r: &Self| [r.refusal, r.attached, r.index, r.count, r.harm];
        let (mine, theirs) = (numbers(self), numbers(other));
        if let Some(k) = (0..5).find(|k| mine[*k] != theirs[*k]) {
            return Some(format!("{}: {} and {}", words[k], mine[k], theirs[k]));
        }
        if let Some(at) = unlike(&self.line, &other.line) {
            return Some(format!("slot {} byte {}: {} and {}", at / slot, at % slot, self.line[at], other.line[at]));
        }
        let k = unlike(&self.list, &other.list)? / PLACE;
        Some(format!("place {k} of the list: {} and {}", hex(self.place(k)), hex(other.place(k))))
    }
}

/// The first byte that differs.
fn unlike(a: &[u8], b: &[u8]) -> Option<usize> {
    a.iter().zip(b).position(|(x, y)| x != y)
}

impl Asked for Run {
    type Answer = Ran;
    fn frame(&self) -> Vec<u8> {
        let mut out = vec![KIND, 0, 0, 0];
        let (line, subtables) = (self.line.len() as u32, self.subtables.len() as u32);
        for v in [self.direction, self.s, self.u, self.lookup_type, self.lookup_flag, line, subtables] {
            out.extend(v.to_be_bytes());
        }
        for v in [self.size, self.lens.len() as u64, self.places as u64] {
            out.extend(v.to_be_bytes());
        }
        self.lens.iter().for_each(|n| out.extend(n.to_be_bytes()));
        out.extend(&self.line);
        out.extend(&self.subtables);
        out
    }
    fn parse(&self, b: &[u8]) -> Ran {
        let n = |k: usize| be(&b[8 * k..8 * k + 8]);
        let (line, list) = b[40..].split_at(self.line.len());
        let (line, list) = (line.to_vec(), list.to_vec());
        let mut ran = Ran { refusal: n(0), attached: n(1), index: n(2), count: n(3), harm: n(4), line, list };
        let written = ran.written();
        ran.list.chunks_mut(PLACE).take(written).for_each(|place| place[4..8].fill(0));
        ran
    }
    fn died(&self) -> Ran {
        Ran { refusal: 0, attached: 0, index: 0, count: 0, harm: 2, line: vec![], list: vec![] }
    }
}
