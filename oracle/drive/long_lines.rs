//! Finishing lines of 1,024 slots: every direction, nesting limits 0, 1 and 64, marks and cursive glyphs before and after what they hang on, loops, types and
//! chains of every kind, and sums past 32 bits; then what is refused, and finishing without the flag.
use crate::call::*;
use crate::groups::{group, on, Group};
use crate::lines::Slot;

/// How the slots of a line hang on each other.
#[derive(Clone, Copy)]
enum Case {
    Stacked,
    Ahead,
    CursiveUp,
    CursiveDown,
    Pairs,
    Rings,
    Mixed,
    Huge,
}

const CASES: [(Case, &str); 8] = [
    (Case::Stacked, "marks on the slot before, a base each eight slots"),
    (Case::Ahead, "marks on the slot after, a base each eight slots"),
    (Case::CursiveUp, "cursive glyphs on the slot after"),
    (Case::CursiveDown, "cursive glyphs on the slot before"),
    (Case::Pairs, "loops of two cursive glyphs"),
    (Case::Rings, "loops of eight, marks and cursive glyphs in turn"),
    (Case::Mixed, "types 0 to 3, chains -10 to 10"),
    (Case::Huge, "the same, with sums past 32 bits"),
];

/// The attach type and the chain of slot i.
fn attachment(case: Case, i: i32) -> (i32, i32) {
    match case {
        Case::Stacked => (1, if i % 8 == 0 { 0 } else { -1 }),
        Case::Ahead => (1, if i % 8 == 7 { 0 } else { 1 }),
        Case::CursiveUp => (2, 1),
        Case::CursiveDown => (2, -1),
        Case::Pairs => (2, if i % 2 == 0 { 1 } else { -1 }),
        Case::Rings => (1 + i % 2, if i % 8 == 7 { -7 } else { 1 }),
        Case::Mixed | Case::Huge => ((i * 7 + i / 3) % 4, (i * 5 + i / 7) % 21 - 10),
    }
}

/// A number from -500 to 500 that depends on n; in the huge case four million times that.
fn spread(case: Case, n: i32) -> i32 {
    let m = n % 1001 - 500;
    match case {
        Case::Huge => m * 4_000_000,
        _ => m,
    }
}

fn slot(case: Case, i: i32) -> Slot {
    let (kind, chain) = attachment(case, i);
    Slot { kind: kind as u8, chain: chain as i16, measures: [37, 53, 71, 89].map(|k| spread(case, i * k)), ..Slot::default() }
}

fn finish(case: Case, direction: u32, limit: u32, attachments: u32) -> Call {
    let slots: Vec<Slot> = (0..1024).map(|i| slot(case, i)).collect();
    Call { direction, limit, attachments, ..on(FINISH, &slots, vec![]) }
}

/// A case in every direction, with each limit.
fn every_way(case: Case) -> Vec<Call> {
    let ways = (0..4).flat_map(|direction| [0, 1, 64].map(|limit| (direction, limit)));
    ways.map(|(direction, limit)| finish(case, direction, limit, 1)).collect()
}

pub fn groups() -> Vec<Group> {
    let named = |name: &str, calls| group(&format!("finishing 1,024 slots: {name}"), calls);
    let mut all: Vec<Group> = CASES.iter().map(|(case, name)| named(name, every_way(*case))).collect();
    let mixed = |direction, limit, attachments| finish(Case::Mixed, direction, limit, attachments);
    all.push(named("refused", vec![mixed(0, 65, 1), mixed(4, 64, 1), mixed(4, 65, 1)]));
    all.push(named("without the flag", vec![mixed(0, 64, 0), mixed(3, 0, 0), mixed(0, 65, 0)]));
    all
}
