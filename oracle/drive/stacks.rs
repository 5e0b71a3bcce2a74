//! Marks on marks: every pair of ligature ids with four components, which shows what matches; and each thing that can be lacking together with each other, which
//! shows in what order a call looks.
use crate::call::*;
use crate::groups::{covering, group, laid, marks_of, of_glyph, on, rows_of, Group};
use crate::lines::Slot;
use crate::sets::{digit, plain, Set};
use crate::tables::words;

/// Makes letters of the first slots, and hangs each mark but the last on the last of them.
pub fn on_letters(call: &mut Call, letters: usize) {
    let last = call.slots() - 1;
    for (i, slot) in call.each_slot().enumerate() {
        if i < letters {
            slot[4] = 1;
        } else if i < last {
            slot[5] = 1;
            slot[6..8].copy_from_slice(&((letters - 1) as i16 - i as i16).to_be_bytes());
        }
    }
}

/// Every id with each of four components, of both slots; the earlier one seen or not, a mark or not, covered or not, next to the other or not; that one a mark
/// or not.
fn matches(kind: usize, form: usize, mut number: usize) -> Call {
    let mut call = plain(kind, form, 3);
    let earlier = digit(&mut number, 2);
    for (i, flags) in [(earlier, &[2, 3, 1, 0][..]), (2, &[2, 1])] {
        let (id, component) = (digit(&mut number, 8) as u8, [0, 1, 2, 15][digit(&mut number, 4)]);
        call.slot(i)[2..5].copy_from_slice(&[id, component, flags[digit(&mut number, flags.len())]]);
    }
    if digit(&mut number, 2) == 1 {
        call.slot(earlier)[1] = 99;
    }
    call.neighbour = earlier as u64;
    call
}
const MATCHES: usize = 2 * (8 * 4 * 4) * (8 * 4 * 2) * 2;

/// In how many ways each part of a call can be: the two coverages, the mark array, the rows, the earlier slot. In way 0 of all it is applied.
const WAYS: [usize; 5] = [3, 3, 6, 8, 4];

/// Has index 1; there is no coverage; is not covered.
fn covers(way: usize, glyph: u16) -> Vec<u8> {
    [covering(&[5, glyph]), vec![], covering(&[5])][way].clone()
}

/// Class 1 and an anchor; the offset 0, which is read as given; no array; a class at the count; no record 1; an anchor of no format.
fn marks(way: usize) -> Vec<u8> {
    let arrays: [&[u16]; 6] =
        [&[2, 0, 10, 1, 10, 1, 15, 25], &[2, 0, 10, 1, 0], &[], &[2, 0, 10, 2, 10, 1, 15, 25], &[1, 0, 6, 1, 15, 25], &[2, 0, 10, 1, 10, 4, 15, 25]];
    words(arrays[way])
}

/// Three rows for two classes, with row 1's anchor among the offsets, so that it is there also where the array is cut: a byte short, a row too many. Then no
/// array; no row 1; the offset 0; an anchor of no format; an offset past the end.
fn rows(way: usize) -> Vec<u8> {
    match way {
        0 => words(&[3, 1, 140, 240, 2, 0, 0]),
        1 => words(&[3, 1, 140, 240, 2, 0, 0])[..13].to_vec(),
        2 => words(&[4, 1, 140, 240, 2, 0, 0]),
        3 => vec![],
        4 => words(&[1, 1, 140, 240, 2]),
        5 => words(&[3, 1, 140, 240, 0, 0, 0]),
        6 => words(&[3, 4, 140, 240, 2, 0, 0]),
        _ => words(&[3, 1, 140, 240, 999, 0, 0]),
    }
}

/// Each part in one of its ways. The array of rows comes last, so that it is cut where it ends.
fn lacking(kind: usize, form: usize, mut number: usize) -> Call {
    let mut call = plain(kind, form, 3);
    let [own, earlier, mark, row, slot] = WAYS.map(|n| digit(&mut number, n));
    let mut tables = vec![(2, covers(own, 20)), (4, covers(earlier, 10)), (8, marks(mark)), (10, rows(row))];
    tables.retain(|(_, table)| !table.is_empty());
    call.subtable = laid(words(&[1, 0, 0, 2, 0, 0]), &tables);
    call.slot(1)[..2].copy_from_slice(&[0, 10]);
    call.slot(2)[..2].copy_from_slice(&[0, 20]);
    match slot {
        1 => call.slot(1)[3] += 1,
        2 => call.slot(1)[4] = 1,
        3 => call.missing = 1,
        _ => {}
    }
    call.direction = digit(&mut number, 4) as u32;
    call
}

fn all_lacking() -> usize {
    WAYS.iter().product()
}

/// The sets of marks on marks.
pub fn sets() -> Vec<Set> {
    vec![Set { name: "ids and components", count: MATCHES, make: matches }, Set { name: "parts lacking", count: all_lacking() * 4, make: lacking }]
}

/// Ids and components 0 to 2 of both slots, the earlier a mark or not.
fn short_matches() -> Vec<Call> {
    let tables = [(2, covering(&[20])), (4, covering(&[10])), (8, marks_of(&[(0, 15, 25)])), (10, rows_of(&[&[(140, 240)]]))];
    let subtable = laid(words(&[1, 0, 0, 1, 0, 0]), &tables);
    let mut calls = vec![];
    for mut number in 0..81 * 2 {
        let [earlier, own] = [10, 20].map(|glyph| {
            let (ligature_id, component) = (digit(&mut number, 3) as u8, digit(&mut number, 3) as u8);
            Slot { ligature_id, component, flags: 2, ..of_glyph(glyph) }
        });
        let earlier = Slot { flags: if number == 0 { 2 } else { 1 }, ..earlier };
        calls.push(on(MARK_MARK, &[earlier, own], subtable.clone()));
    }
    calls
}

/// At most two parts in another way than 0.
fn two_lacking() -> Vec<Call> {
    let few = |mut number: usize| WAYS.iter().filter(|n| digit(&mut number, **n) > 0).count() <= 2;
    (0..all_lacking()).filter(|number| few(*number)).map(|number| lacking(MARK_MARK, FORMS[0], number)).collect()
}

pub fn groups() -> Vec<Group> {
    vec![
        group("marks on marks: ids and components 0 to 2, the earlier a mark or not", short_matches()),
        group("marks on marks: every two parts lacking", two_lacking()),
    ]
}
