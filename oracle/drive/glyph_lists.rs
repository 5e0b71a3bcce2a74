//! Coverage tables, tried through single adjustment, and class lists, through pair adjustment: good, damaged, of unknown format, cut at every byte, and as long as
//! a subtable can be. A list stands at the end of its subtable. What is written or declined tells the index or the class.
use crate::call::*;
use crate::groups::{cut_each, group, laid, of_glyph, on, Group};
use crate::tables::words;

/// Coverage tables, and glyphs that are asked for.
const COVERAGES: [(&[u16], [u16; 3]); 11] = [
    (&[1, 0], [0, 1, 65535]),
    (&[1, 1, 5], [4, 5, 6]),
    (&[1, 3, 5, 9, 300], [5, 9, 300]),
    (&[2, 0], [0, 1, 65535]),
    (&[2, 1, 10, 12, 7], [10, 12, 13]),
    (&[2, 1, 0, 65535, 65535], [0, 1, 65535]),
    // a glyph twice, glyphs falling, ranges that share a glyph, a range falling, unknown
    (&[1, 2, 9, 9], [8, 9, 10]),
    (&[1, 2, 9, 5], [5, 7, 9]),
    (&[2, 2, 5, 9, 0, 9, 12, 5], [5, 9, 12]),
    (&[2, 1, 9, 5, 0], [5, 7, 9]),
    (&[3, 0], [0, 1, 2]),
];

/// Class lists, the same.
const CLASS_LISTS: [(&[u16], [u16; 3]); 7] = [
    (&[1, 5, 0], [4, 5, 6]),
    (&[1, 5, 1, 7], [4, 5, 6]),
    (&[1, 65535, 1, 7], [0, 65534, 65535]),
    (&[2, 0], [0, 1, 65535]),
    (&[2, 1, 10, 12, 3], [9, 12, 13]),
    // ranges that share a glyph, unknown
    (&[2, 2, 5, 9, 1, 9, 12, 2], [5, 9, 12]),
    (&[0, 0, 0], [0, 1, 2]),
];

/// A subtable that adjusts the x advance by 100 for index or class 0, by 101 for 1, and so on, below the count.
fn with_records(head: &[u16], count: u16) -> Vec<u8> {
    words(&[head, &(100..100 + count).collect::<Vec<u16>>()[..]].concat())
}

fn single(glyph: u16, subtable: Vec<u8>) -> Call {
    on(SINGLE, &[of_glyph(glyph)], subtable)
}

/// Single adjustment by the index of a glyph, of 16 records.
fn by_index(coverage: &[u16], glyph: u16) -> Call {
    single(glyph, laid(with_records(&[2, 0, 4, 16], 16), &[(2, words(coverage))]))
}

/// Single adjustment by format 2 with so many records of no bytes: it declines where the index is not below the count.
fn below(count: u16, coverage: Vec<u8>, glyph: u16) -> Call {
    single(glyph, filled(words(&[2, 0, 0, count]), 2, coverage))
}

/// Glyphs whose indexes are 65,535 and more: covered, but never below a count of 16 bits, also where they are below it once they are cut to 16 bits.
fn high_indexes() -> Vec<Call> {
    let (coverage, glyphs) = COVERAGES[5];
    let covered = glyphs.map(|g| single(g, laid(words(&[1, 0, 4, 20]), &[(2, words(coverage))])));
    let counted = glyphs.map(|g| single(g, laid(words(&[2, 0, 0, 65535]), &[(2, words(coverage))])));
    [covered, counted].concat()
}

/// Whose glyph a class list is for.
#[derive(Clone, Copy)]
enum Of {
    First,
    Second,
}

impl Of {
    /// Where the subtable has the list's offset.
    fn place(self) -> usize {
        match self {
            Of::First => 8,
            Of::Second => 10,
        }
    }
    /// The counts of classes; the other glyph has class 0 alone.
    fn counts(self, n: u16) -> [u16; 2] {
        match self {
            Of::First => [n, 1],
            Of::Second => [1, n],
        }
    }
    /// The head of a subtable by classes that adjusts the first glyph by values of a format.
    fn head(self, format: u16, n: u16) -> [u16; 8] {
        let [first, second] = self.counts(n);
        [2, 0, format, 0, 0, 0, first, second]
    }
    fn pair(self, glyph: u16, subtable: Vec<u8>) -> Call {
        let glyphs = match self {
            Of::First => [glyph, 1],
            Of::Second => [1, glyph],
        };
        on(PAIR, &glyphs.map(of_glyph), subtable)
    }
}

fn every_glyph() -> Vec<u8> {
    words(&[2, 1, 0, 65535, 0])
}

/// Pair adjustment by the class of a glyph, of 8 classes.
fn by_class(of: Of, list: &[u16], glyph: u16) -> Call {
    let subtable = laid(with_records(&of.head(4, 8), 8), &[(2, every_glyph()), (of.place(), words(list))]);
    of.pair(glyph, subtable)
}

/// Pair adjustment by so many classes, with records of no bytes: it declines where the class is not below the count.
fn class_below(of: Of, count: u16, list: Vec<u8>, glyph: u16) -> Call {
    let head = laid(words(&of.head(0, count)), &[(2, every_glyph())]);
    of.pair(glyph, filled(head, of.place(), list))
}

/// A subtable of 65,536 bytes, the most that there can be, with a list at its end and the list's offset at a place.
fn filled(mut subtable: Vec<u8>, place: usize, list: Vec<u8>) -> Vec<u8> {
    subtable.resize(65_536 - list.len(), 0);
    laid(subtable, &[(place, list)])
}

/// How many numbers or records of so many bytes fit behind a subtable's first bytes and a list's.
fn room(head: usize, list: usize, bytes: usize) -> u16 {
    ((65_536 - head - list) / bytes) as u16
}

/// Ranges 0 to 3 of 0, 6 to 9 of 4, 12 to 15 of 8 ..
fn ranges(n: u16) -> Vec<u8> {
    let records: Vec<u16> = (0..n).flat_map(|k| [6 * k, 6 * k + 3, 4 * k]).collect();
    words(&[&[2, n], &records[..]].concat())
}

/// The first covered glyph and the last, each with a record more than its index and with as many as that; then one that is not covered.
fn full_coverages() -> Vec<Call> {
    let n = room(8, 4, 2);
    let glyphs = words(&[&[1, n], &(0..n).map(|k| 2 * k + 1).collect::<Vec<u16>>()[..]].concat());
    let m = room(8, 4, 6) - 1;
    let mut calls = vec![];
    for (list, first, last, not) in [(glyphs, (1, 0), (2 * n - 1, n - 1), 2 * n - 2), (ranges(m + 1), (0, 0), (6 * m + 3, 4 * m + 3), 6 * m + 4)] {
        for (glyph, index) in [first, last] {
            calls.extend([index + 1, index].map(|count| below(count, list.clone(), glyph)));
        }
        calls.push(below(65535, list, not));
    }
    calls
}

/// Glyphs, each with a class more than its own and with as many as that: of list 1 the first, the last and one past it, of list 2 one of the first range, of
/// class 0, the last and one past it.
fn full_class_lists() -> Vec<Call> {
    let n = room(26, 6, 2);
    let classes = words(&[&[1, 0, n], &(1..=n).collect::<Vec<u16>>()[..]].concat());
    let m = room(26, 4, 6) - 1;
    let glyphs = [(Of::First, classes, [(0, 1), (n - 1, n), (n, 0)]), (Of::Second, ranges(m + 1), [(3, 0), (6 * m + 3, 4 * m), (6 * m + 4, 0)])];
    let mut calls = vec![];
    for (of, list, asked) in glyphs {
        for (glyph, class) in asked {
            calls.extend([class + 1, class].map(|count| class_below(of, count, list.clone(), glyph)));
        }
    }
    calls
}

/// Short lists cut at every byte; glyph 5 stands in front of each cut but the first ones.
fn cut_lists() -> [Vec<Call>; 2] {
    let coverages: [&[u16]; 2] = [&[1, 2, 5, 9], &[2, 1, 5, 9, 0]];
    let classes: [&[u16]; 2] = [&[1, 5, 1, 7], &[2, 1, 5, 9, 1]];
    let cut_coverages = coverages.iter().flat_map(|t| [5, 9].map(|g| cut_each(&by_index(t, g))).concat());
    let cut_classes = classes.iter().flat_map(|t| [Of::First, Of::Second].map(|of| cut_each(&by_class(of, t, 5))).concat());
    [cut_coverages.collect(), cut_classes.collect()]
}

pub fn groups() -> Vec<Group> {
    let coverages = COVERAGES.iter().flat_map(|(t, glyphs)| glyphs.map(|g| by_index(t, g)));
    let by_place = |of: Of| CLASS_LISTS.iter().flat_map(move |(t, glyphs)| glyphs.map(|g| by_class(of, t, g)));
    let [cut_coverages, cut_classes] = cut_lists();
    vec![
        group("coverage tables: good, damaged, unknown", coverages.collect()),
        group("coverage tables: indexes of 65,535 and more", high_indexes()),
        group("coverage tables cut at every byte", cut_coverages),
        group("coverage tables that fill 65,536 bytes", full_coverages()),
        group("class lists: good, damaged, unknown", by_place(Of::First).chain(by_place(Of::Second)).collect()),
        group("class lists cut at every byte", cut_classes),
        group("class lists that fill 65,536 bytes", full_class_lists()),
    ]
}
