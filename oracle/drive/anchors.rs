//! Anchors, tried through cursive attachment, and mark arrays and rows of anchors, through the attachment of marks: good, absent, damaged, of unknown format, and
//! cut at every byte. What is tried stands at the end of its subtable, and every anchor has its own place, so that the offsets written tell which was read.
use crate::call::*;
use crate::groups::{anchor_at, covering, cut_each, group, laid, marks_of, of_glyph, on, rows_of, Group};
use crate::lines::Slot;
use crate::tables::words;

/// The number in 16 bits.
const fn low(n: i16) -> u16 {
    n as u16
}

/// Anchors of formats 1 to 3, the last at the ends of 16 bits, and of formats that there aren't.
const ANCHORS: [&[u16]; 5] =
    [&[1, 189, low(-103)], &[2, 322, 900, 13], &[3, low(i16::MIN), low(i16::MAX), 0, 0], &[0, 189, low(-103)], &[4, 189, low(-103), 0, 0, 0]];

/// One of each format, to be cut.
const CUT_ANCHORS: [&[u16]; 3] = [&[1, 189, low(-103)], &[2, 322, 900, 13], &[3, 279, 1301, 10, 20]];

/// Places of offsets in a cursive subtable of glyphs 1 and 2: the first's exit, the second's entry.
const EXIT: usize = 8;
const ENTRY: usize = 10;

/// Cursive attachment of glyph 2 to glyph 1, with an anchor as that exit or that entry and the other of the two at (1000, 2000).
fn cursive(place: usize, anchor: &[u16]) -> Call {
    let other = EXIT + ENTRY - place;
    let tables = [(2, covering(&[1, 2])), (other, anchor_at(1000, 2000)), (place, words(anchor))];
    let slots = [1, 2].map(|g| Slot { measures: [600, 0, 0, 0], ..of_glyph(g) });
    on(CURSIVE, &slots, laid(words(&[1, 0, 2, 0, 0, 0, 0]), &tables))
}

/// Attachment of a mark to a base, to a component of a ligature, or to an earlier mark, which are alike but for how a row of anchors is chosen.
#[derive(Clone, Copy)]
struct Attaching {
    kind: usize,
    classes: u16,
}

impl Attaching {
    /// A subtable of bases 1 to 3 and marks 20 to 22, with the mark array at its end or the rows.
    fn subtable(self, marks: &[u8], rows: &[u8], marks_last: bool) -> Vec<u8> {
        let bases = if self.kind == MARK_LIGATURE { laid(words(&[1, 0]), &[(2, rows.to_vec())]) } else { rows.to_vec() };
        let mut tables = vec![(2, covering(&[20, 21, 22])), (4, covering(&[1, 2, 3])), (8, marks.to_vec()), (10, bases)];
        if marks_last {
            tables.swap(2, 3);
        }
        laid(words(&[1, 0, 0, self.classes, 0, 0]), &tables)
    }
    /// A mark on a row of anchors: the base's or the earlier mark's own, or that of a ligature's component, whose number is one more.
    fn attach(self, subtable: &[u8], row: usize, mark: usize) -> Call {
        let is_ligature = self.kind == MARK_LIGATURE;
        let flags = if self.kind == MARK_MARK { 2 } else { 1 };
        let base = Slot { ligature_id: 1, flags, ..of_glyph(if is_ligature { 1 } else { 1 + row as u16 }) };
        let component = if is_ligature { 1 + row as u8 } else { 0 };
        let mark = Slot { ligature_id: 1, component, flags: 2, ..of_glyph(20 + mark as u16) };
        on(self.kind, &[base, mark], subtable.to_vec())
    }
    /// Mark 0 has class 3, mark 1 class 1 and the offset 0, which is read as given: the array's own first bytes are its anchor. There is no mark 2. Then arrays of which
    /// the first record is cut, and of which its offset leads past the end.
    fn mark_arrays(self) -> Vec<Call> {
        let array = words(&[2, 3, 10, 1, 0, 1, 10, low(-1)]);
        let rows = rows_of(&[&[(100, 1000), (200, 2000), (300, 3000), (400, 4000)]]);
        let all = self.subtable(&array, &rows, true);
        let mut calls: Vec<Call> = (0..3).map(|mark| self.attach(&all, 0, mark)).collect();
        for damaged in [&[0, 1, 0, 3, 0][..], &[0, 1, 0, 3, 0, 7]] {
            calls.push(self.attach(&self.subtable(damaged, &rows, true), 0, 0));
        }
        calls.extend((0..2).flat_map(|mark| cut_each(&self.attach(&all, 0, mark))));
        calls
    }
    /// Rows 0 to 2 for marks of classes 0 to 2: of two rows for two classes, with an anchor alone for row 0, class 0 and row 1, class 1, and of three rows that have all.
    fn rows(self) -> Vec<Call> {
        let marks = marks_of(&[(0, 1, 2), (1, 3, 5), (2, 7, 11)]);
        let some = words(&[2, 10, 0, 0, 10, 1, 7, 8]);
        let all = rows_of(&[&[(100, 1000), (200, 2000)], &[(300, 3000), (400, 4000)], &[(500, 5000), (600, 6000)]]);
        let mut calls = vec![];
        for rows in [&some, &all] {
            let subtable = self.subtable(&marks, rows, false);
            calls.extend((0..3).flat_map(|row| [0, 1, 2].map(|mark| self.attach(&subtable, row, mark))));
        }
        calls.push(self.attach(&self.subtable(&marks, &[0, 1, 0, 6, 0], false), 0, 0));
        let whole = self.subtable(&marks, &some, false);
        calls.extend([0, 1].iter().flat_map(|k| cut_each(&self.attach(&whole, *k, *k))));
        calls
    }
}

pub fn groups() -> Vec<Group> {
    let places = [EXIT, ENTRY];
    let anchors = places.iter().flat_map(|place| ANCHORS.map(|a| cursive(*place, a)));
    let cut = places.iter().flat_map(|place| CUT_ANCHORS.map(|a| cut_each(&cursive(*place, a))).concat());
    let mut all = vec![group("anchors: formats 1 to 3, unknown", anchors.collect()), group("anchors cut at every byte", cut.collect())];
    for (kind, name) in [(MARK_BASE, "base"), (MARK_LIGATURE, "ligature"), (MARK_MARK, "mark")] {
        all.push(group(&format!("mark arrays, by mark to {name}"), Attaching { kind, classes: 4 }.mark_arrays()));
        all.push(group(&format!("rows of anchors, by mark to {name}"), Attaching { kind, classes: 2 }.rows()));
    }
    all
}
