//! What oracle/bench measures: lines and subtables. Glyphs are such that a search takes its longest.
use crate::frame::*;

pub struct Case {
    pub kind: u8,
    pub direction: u32,
    /// The bytes of a slot.
    pub size: usize,
    pub line: Vec<u8>,
    /// Of a move, the target.
    pub subtable: Vec<u8>,
    /// Index and neighbour of each call, or `NONE`; only applying calls can be several. Of a run, those that it makes.
    pub calls: Vec<(usize, usize)>,
    /// Is the library's side one run of the lookup?
    pub run: bool,
    /// Where the entry of a list is that the last check looks at; 0 there is refused with 6. In starting and finishing the last slot's flags are looked at last, in
    /// moving the target's length, or the last slot's cluster.
    last: usize,
    /// Is the text that of the crate's own types for kerning?
    pub kern: bool,
}

/// In place of a neighbour that is missing.
pub const NONE: usize = usize::MAX;

#[derive(Clone, Copy)]
struct Slot {
    glyph: usize,
    id: u8,
    component: u8,
    flags: u8,
    kind: u8,
    chain: i16,
}

const PLAIN: Slot = Slot { glyph: 1, id: 0, component: 0, flags: 1, kind: 0, chain: 0 };

fn line(slots: usize, slot: impl Fn(usize) -> Slot) -> Vec<u8> {
    let mut out = vec![];
    for s in (0..slots).map(slot) {
        out.extend((s.glyph as u16).to_be_bytes());
        out.extend([s.id, s.component, s.flags, s.kind]);
        out.extend(s.chain.to_be_bytes());
        for v in [600, 0, 0, 5i32] {
            out.extend(v.to_be_bytes());
        }
    }
    out
}

/// The same line on slots with clusters, each its slot's number.
pub fn with_clusters(line: &[u8]) -> Vec<u8> {
    let numbered = line.chunks_exact(24).zip(0u32..);
    numbered.flat_map(|(slot, k)| [slot, &k.to_be_bytes()].concat()).collect()
}

fn words(of: impl IntoIterator<Item = usize>) -> Vec<u8> {
    of.into_iter().flat_map(|w| (w as u16).to_be_bytes()).collect()
}

/// Coverage format 1.
fn covers(glyphs: std::ops::RangeInclusive<usize>) -> Vec<u8> {
    words([1, glyphs.clone().count()].into_iter().chain(glyphs))
}

/// Class list format 2: class c from 1 to 9 has seven glyphs, all others are of class 0.
fn classes() -> Vec<u8> {
    words([2, 9].into_iter().chain((0..9).flat_map(|c| [7 * c + 1, 7 * c + 7, c + 1])))
}

fn anchor(x: usize, y: usize) -> Vec<u8> {
    words([1, x, y])
}

/// A header, whose words at the given places become the offsets of the tables behind it.
fn joined(mut header: Vec<u8>, tables: &[(usize, Vec<u8>)]) -> Vec<u8> {
    for (place, table) in tables {
        let at = header.len() as u16;
        header[2 * place..2 * place + 2].copy_from_slice(&at.to_be_bytes());
        header.extend(table);
    }
    header
}

/// For the glyphs 1 to 64; value format 4.
fn single() -> Vec<u8> {
    joined(words([1, 0, 4, 7]), &[(1, covers(1..=64))])
}

/// 64 first glyphs by 32 second glyphs, 2 to 64; formats 4 and 0.
fn pairs() -> Vec<u8> {
    let set = words([32].into_iter().chain((1..=32).flat_map(|k| [2 * k, 1000 + k])));
    let mut tables: Vec<_> = (0..64).map(|k| (5 + k, set.clone())).collect();
    tables.push((1, covers(1..=64)));
    joined(words([1, 0, 4, 0, 64].into_iter().chain([0; 64])), &tables)
}

/// 10 by 10 classes; formats 4 and 0.
fn class_pairs() -> Vec<u8> {
    let header = words([2, 0, 4, 0, 0, 0, 10, 10].into_iter().chain(1000..1100));
    joined(header, &[(1, covers(1..=64)), (4, classes()), (5, classes())])
}

/// An entry and an exit for each of 64 glyphs.
fn cursive() -> Vec<u8> {
    let mut tables: Vec<_> = (0..128).map(|k| (3 + k, anchor(30 + k, 5 + k))).collect();
    tables.push((1, covers(1..=64)));
    joined(words([1, 0, 64].into_iter().chain([0; 128])), &tables)
}

/// Rows of anchors for four mark classes, behind their count.
fn rows(count: usize) -> Vec<u8> {
    let tables: Vec<_> = (0..4 * count).map(|k| (1 + k, anchor(300 + k, 600 + k))).collect();
    joined(words([count].into_iter().chain(vec![0; 4 * count])), &tables)
}

/// 32 marks, 101 to 132, in four classes, and 32 bases, 1 to 32; or ligatures of three components; or marks that stand below.
fn marks(kind: u8) -> Vec<u8> {
    let records = words([32].into_iter().chain((0..32).flat_map(|k| [k % 4, 0])));
    let array = joined(records, &(0..32).map(|k| (2 + 2 * k, anchor(20 + k, 10 + k))).collect::<Vec<_>>());
    let ligatures = || joined(words([32].into_iter().chain([0; 32])), &(0..32).map(|k| (1 + k, rows(3))).collect::<Vec<_>>());
    let bases = if kind == MARK_LIGATURE { ligatures() } else { rows(32) };
    joined(words([1, 0, 0, 4, 0, 0]), &[(4, array), (5, bases), (1, covers(101..=132)), (2, covers(1..=32))])
}

/// The slots of a line that is finished.
fn attached(case: &str, k: usize) -> Slot {
    let (flags, kind, chain) = match case {
        "marks" if k % 2 == 1 => (2, 1, -1),
        "cursive" | "against" if k > 0 => (1, 2, -1),
        "stacks" if k % 32 != 0 => (2, 1, -((k % 32) as i16)),
        _ => (1, 0, 0),
    };
    Slot { glyph: k % 64 + 1, flags, kind, chain, ..PLAIN }
}

/// Every other slot a mark, not seen, of the base or the ligature before it.
fn marked(k: usize) -> Slot {
    let (n, id) = (k / 2 % 32, (k / 2 % 7 + 1) as u8);
    if k % 2 == 0 {
        Slot { glyph: n + 1, id, ..PLAIN }
    } else {
        Slot { glyph: n + 101, id, component: 2, flags: 2, ..PLAIN }
    }
}

/// Every third slot a base, then two marks of one component, the first on the base.
fn stacked(k: usize) -> Slot {
    let (n, id) = (k / 3 % 32, (k / 3 % 7 + 1) as u8);
    match k % 3 {
        0 => Slot { glyph: 201, id, ..PLAIN },
        1 => Slot { glyph: n + 1, id, component: 2, flags: 3, kind: 1, chain: -1 },
        _ => Slot { glyph: n + 101, id, component: 2, flags: 3, ..PLAIN },
    }
}

/// A letter, then marks alone.
fn heaped(k: usize) -> Slot {
    if k == 0 { PLAIN } else { Slot { glyph: 101, flags: 2, ..PLAIN } }
}

/// What a lookup is run over: a line, a subtable, and the neighbour of each slot, or none.
fn run_of(case: &str, slots: usize) -> (u8, Vec<u8>, Vec<u8>, fn(usize, usize) -> usize) {
    let all = |glyph, flags| line(slots, |_| Slot { glyph, flags, ..PLAIN });
    let after: fn(usize, usize) -> usize = |k, n| if k + 1 < n { k + 1 } else { NONE };
    let before: fn(usize, usize) -> usize = |k, _| if k > 0 { k - 1 } else { NONE };
    let none: fn(usize, usize) -> usize = |_, _| NONE;
    match case {
        "single" => (SINGLE, all(1, 1), single(), none),
        "single, uncovered" => (SINGLE, all(99, 1), single(), none),
        "pair" => (PAIR, all(2, 1), pairs(), after),
        "pair, miss" => (PAIR, all(3, 1), pairs(), after),
        "pair, unseen" => (PAIR, all(2, 0), pairs(), none),
        "classes" => (PAIR, all(2, 1), class_pairs(), after),
        "cursive" => (CURSIVE, all(1, 1), cursive(), before),
        "marks" => (MARK_BASE, line(slots, marked), marks(MARK_BASE), none),
        "heaped" => (MARK_BASE, line(slots, heaped), marks(MARK_BASE), none),
        "ligatures" => (MARK_LIGATURE, line(slots, marked), marks(MARK_LIGATURE), none),
        "stacked" => (MARK_MARK, line(slots, stacked), marks(MARK_MARK), before),
        _ => panic!("no run {case}"),
    }
}

impl Case {
    /// A run of a lookup of one subtable.
    fn of_run(case: &str, slots: usize) -> Self {
        let (kind, line, subtable, near) = run_of(case, slots);
        let calls = (0..slots).map(|k| (k, near(k, slots))).collect();
        let last = subtable.len() - if case == "classes" { 6 } else { 2 };
        Self { kind, direction: 0, size: 24, line, subtable, calls, run: true, last, kern: false }
    }
    pub fn new(call: &str, case: &str, slots: usize) -> Self {
        if call == "run" {
            return Self::of_run(case, slots);
        }
        let pair = |second| line(slots, |k| Slot { glyph: if k == 1 { second } else { 1 }, ..PLAIN });
        let each_mark: Vec<_> = (0..slots).filter(|k| k % 2 == 1).map(|k| (k, 0)).collect();
        let each_stack: Vec<_> = (0..slots).filter(|k| k % 3 == 2).map(|k| (k, k - 1)).collect();
        let (kind, line, subtable, calls, from_end) = match (call, case) {
            ("start", _) => (START, line(slots, |k| attached(case, k)), vec![], vec![(0, 0)], 0),
            ("finish", _) => (FINISH, line(slots, |k| attached(case, k)), vec![], vec![(0, 0)], 0),
            ("single", _) => (SINGLE, line(slots, |_| PLAIN), single(), vec![(0, 0)], 2),
            ("pair", "hit" | "kern") => (PAIR, pair(2), pairs(), vec![(0, 1)], 2),
            ("pair", "miss") => (PAIR, pair(3), pairs(), vec![(0, 1)], 2),
            ("pair", "miss, searched") => (PAIR, pair(66), pairs(), vec![(0, 1)], 2),
            ("pair", "classes" | "classes, kern") => (PAIR, pair(2), class_pairs(), vec![(0, 1)], 6),
            ("cursive", _) => (CURSIVE, pair(2), cursive(), vec![(1, 0)], 2),
            ("mark_base", _) => (MARK_BASE, line(slots, marked), marks(MARK_BASE), each_mark, 2),
            ("mark_ligature", _) => (MARK_LIGATURE, line(slots, marked), marks(MARK_LIGATURE), each_mark, 2),
            ("mark_mark", _) => (MARK_MARK, line(slots, stacked), marks(MARK_MARK), each_stack, 2),
            ("to_clusters", _) => (TO_CLUSTERS, line(slots, marked), vec![0; 28 * slots], vec![(0, 0)], 0),
            ("from_clusters", _) => (FROM_CLUSTERS, with_clusters(&line(slots, marked)), vec![0; 24 * slots], vec![(0, 0)], 0),
            _ => panic!("no case {call} {case}"),
        };
        let last = subtable.len() - from_end;
        let size = if kind == FROM_CLUSTERS { 28 } else { 24 };
        Self { kind, direction: u32::from(case == "against"), size, line, subtable, calls, run: false, last, kern: case.ends_with("kern") }
    }
    /// The same on slots with clusters.
    pub fn with_clusters(self) -> Self {
        Self { size: 28, line: with_clusters(&self.line), ..self }
    }
    /// The same, refused by the check that is made last.
    pub fn spoilt(mut self) -> Self {
        let end = self.line.len();
        match self.kind {
            START | FINISH => self.line[end - self.size + 4] = 8,
            TO_CLUSTERS => self.subtable.truncate(self.subtable.len() - 1),
            FROM_CLUSTERS => self.line[end - 1] ^= 1,
            _ => self.subtable[self.last..self.last + 2].fill(0),
        }
        self
    }
}
