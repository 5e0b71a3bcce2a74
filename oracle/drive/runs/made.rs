//! Runs made one by one from their number: the sets of calls as runs, every pattern of seen bits and coverages on
//! short lines, every mixture of the causes of refusals, lengths and counts of subtables, and numbers of places.
use super::*;
use crate::groups::{anchor_at, covering, laid, marks_of, rows_of};
use crate::lines::{push, scatter_clusters, Slot};
use crate::rng::Rng;
use crate::sets::{digit, plain, sets};
use crate::tables::{whole, words};

pub struct RunSet {
    pub name: &'static str,
    pub count: usize,
    pub make: fn(kind: usize, form: usize, number: usize) -> Run,
}

/// A run with the arguments and the line of a call, and exactly the places that it must have.
pub fn of_call(call: &Call, parts: &[Vec<u8>]) -> Run {
    let mut run = Run {
        lookup_type: type_of(call.kind),
        lookup_flag: call.lookup_flag,
        direction: call.direction,
        s: call.s,
        u: call.u,
        size: call.size,
        line: call.line.clone(),
        ..Run::default()
    };
    run.set_parts(parts);
    run.places = run.exact_places();
    run
}

/// A call of a set as a run: with its subtable alone, or with one before it for one glyph, or with one behind it for
/// many. Marks are seen or not.
pub fn from_set(kind: usize, form: usize, set: usize, number: usize) -> Run {
    let mut call = (sets(kind)[set].make)(kind, form, number);
    if kind == MARK_MARK && number % 4 != 0 {
        call.each_slot().for_each(|slot| slot[4] |= u8::from(slot[4] == 2));
    }
    scatter_clusters(&mut Rng::new(number as u64), &mut call);
    let own = call.subtable.clone();
    let parts = match number % 3 {
        0 => vec![own],
        1 => vec![own, whole(kind)],
        _ => vec![few(kind), own],
    };
    of_call(&call, &parts)
}

/// A subtable for glyph 3 alone.
fn few(kind: usize) -> Vec<u8> {
    covers(kind, 0b1000, 7)
}

/// The glyphs of a set of bits.
fn glyphs(bits: usize) -> Vec<u16> {
    (0..4).filter(|g| bits >> g & 1 == 1).collect()
}

/// A small subtable that covers these of the glyphs 0 to 3, of a pair as its first; its numbers tell it from others.
/// Marks go on every one of them.
fn covers(kind: usize, bits: usize, number: i16) -> Vec<u8> {
    covers_on(kind, bits, 15, number)
}

/// The same; and marks go on these glyphs.
fn covers_on(kind: usize, bits: usize, bases: usize, number: i16) -> Vec<u8> {
    let (cover, n) = (covering(&glyphs(bits)), glyphs(bits).len());
    let bases = covering(&glyphs(bases));
    let marks = marks_of(&vec![(0, 10 + number, 20); n]);
    let points: Vec<(i16, i16)> = (0..4).map(|k| (300 + 10 * k, 500 - number)).collect();
    let rows: Vec<&[(i16, i16)]> = points.chunks(1).collect();
    match kind {
        SINGLE => laid(words(&[1, 0, 4, 25 + number as u16]), &[(2, cover)]),
        PAIR => {
            let seconds = words(&[2, 1, 0, 7, 0]);
            let second = if number % 2 == 0 { 0 } else { 4 };
            let records = if second == 0 { vec![30] } else { vec![30, 40 + number as u16] };
            let head = [vec![2, 0, 4, second, 0, 0, 1, 1], records].concat();
            laid(words(&head), &[(2, cover), (8, seconds.clone()), (10, seconds)])
        }
        CURSIVE => {
            let mut parent = vec![1, 0, n as u16];
            parent.extend(vec![0; 2 * n]);
            let mut tables = vec![(2, cover)];
            let anchors = (0..2 * n).map(|k| (6 + 2 * k, anchor_at(100 * (k % 2) as i16 + number, k as i16)));
            tables.extend(anchors);
            laid(words(&parent), &tables)
        }
        MARK_LIGATURE => {
            let ligature = rows_of(&rows[..2]);
            let offsets: Vec<_> = (0..4).map(|k| (2 + 2 * k, ligature.clone())).collect();
            let array = laid(words(&[4, 0, 0, 0, 0]), &offsets);
            laid(words(&[1, 0, 0, 1, 0, 0]), &[(2, cover), (4, bases), (8, marks), (10, array)])
        }
        _ => laid(words(&[1, 0, 0, 1, 0, 0]), &[(2, cover), (4, bases), (8, marks), (10, rows_of(&rows))]),
    }
}

/// Slots of the glyphs 0, 1, 2 and so on, of which some are seen. For marks on marks all are marks.
fn line_of(kind: usize, form: usize, n: usize, seen: usize) -> Call {
    let (mut line, mark) = (vec![], if kind == MARK_MARK { 2 } else { 0 });
    for i in 0..n {
        let flags = mark | (seen >> i & 1) as u8;
        let measures = [600 + i as i32, 0, 7 * i as i32, -5 * i as i32];
        push(&mut line, form, Slot { glyph: i as u16, flags, measures, ..Slot::default() });
    }
    let mut call = Call { kind, s: 1000, u: 1000, size: form as u64, line, ..Call::default() };
    scatter_clusters(&mut Rng::new(seen as u64), &mut call);
    call
}

/// So many slots and subtables, with every pattern of seen bits, and of glyphs that each subtable covers.
fn patterns(kind: usize, form: usize, mut number: usize, slots: usize, parts: usize) -> Run {
    let call = line_of(kind, form, slots, digit(&mut number, 1 << slots));
    let part = |k: usize, bits: usize| covers(kind, bits, 3 + 5 * k as i16);
    let parts: Vec<_> = (0..parts).map(|k| part(k, digit(&mut number, 1 << slots))).collect();
    of_call(&call, &parts)
}

fn four_slots(kind: usize, form: usize, number: usize) -> Run {
    patterns(kind, form, number, 4, 2)
}

fn three_slots(kind: usize, form: usize, number: usize) -> Run {
    patterns(kind, form, number, 3, 3)
}

/// Two slots, one to eight subtables of which each covers a slot or doesn't.
fn subtables(kind: usize, form: usize, mut number: usize) -> Run {
    let call = line_of(kind, form, 2, 3);
    let (count, applying) = (1 + digit(&mut number, MOST), digit(&mut number, 256));
    let bits = |k: usize| if applying >> k & 1 == 1 { 3 } else { 0b1100 };
    let parts: Vec<_> = (0..count).map(|k| covers(kind, bits(k), 3 + k as i16)).collect();
    of_call(&call, &parts)
}

/// A good run of three slots and two subtables.
fn good(kind: usize, form: usize) -> Run {
    let call = line_of(kind, form, 3, 7);
    of_call(&call, &[covers(kind, 1, 3), covers(kind, 15, 8)])
}

/// A line as it mustn't be.
fn bad_line(run: &mut Run, way: usize) {
    match way {
        0 => run.line.extend([0]),
        1 => run.line.resize(1025 * run.stride(), 0),
        _ => (run.size, run.line) = (26, vec![0; 26]),
    }
}

/// What is refused with 8, but for its places.
fn bad_list(run: &mut Run, way: usize) {
    match way {
        0 => run.lens.clear(),
        1 => run.lens[1] += 1,
        _ => run.places -= 1,
    }
}

/// What is refused with 6.
fn bad_lookup(run: &mut Run, way: usize) {
    let mut parts = run.parts();
    match way {
        0 => run.lookup_type = 7,
        1 => {
            parts[1].truncate(1);
            run.set_parts(&parts);
        }
        _ => {
            parts[0].resize(65537, 0);
            run.set_parts(&parts);
        }
    }
}

/// Every mixture of the causes of refusals 1, 2, 3, 4, 8 and 6, those of 8 and 6 in every way together.
fn refusals(kind: usize, form: usize, mut number: usize) -> Run {
    let mut run = good(kind, form);
    let causes = digit(&mut number, 64);
    let (way, other) = (digit(&mut number, 3), digit(&mut number, 3));
    let has = |k: usize| causes >> k & 1 == 1;
    if has(1) {
        run.direction = [4, 255, u32::MAX][way];
    }
    if has(2) {
        (run.s, run.u) = [(0, 1000), (32769, 15), (1000, 16385)][way];
    }
    if has(3) {
        let at = run.stride() * way + 2 + way;
        run.line[at] = [8, 16, 8][way];
    }
    if has(5) {
        bad_lookup(&mut run, other);
    }
    if has(4) {
        bad_list(&mut run, way);
    }
    if has(0) {
        bad_line(&mut run, way);
    }
    run
}

/// Every number of places up to some more than there must be, for up to four slots and eight subtables.
fn places(kind: usize, form: usize, mut number: usize) -> Run {
    let (slots, count) = (digit(&mut number, 5), 1 + digit(&mut number, MOST));
    let parts: Vec<_> = (0..count).map(|k| covers(kind, if k + 1 < count { 0 } else { 15 }, 4 + k as i16)).collect();
    let mut run = of_call(&line_of(kind, form, slots, 15), &parts);
    run.places = (run.places + 3).saturating_sub(number);
    run
}

/// Counts of subtables from 0 to 20, and around 256 and 65,536; the line empty or not.
fn counts(kind: usize, form: usize, mut number: usize) -> Run {
    let call = line_of(kind, form, 2 * digit(&mut number, 2), 1);
    let (part, more) = (covers(kind, 3, 4), digit(&mut number, 3));
    let mut run = of_call(&call, &vec![part; digit(&mut number, 21)]);
    run.lens.resize(run.lens.len() + [0, 256, 65536][more], 0);
    run
}

/// The lengths of two subtables, each of them off or at the ends of their numbers, so that exact, 64-bit or 32-bit
/// sums are that of the buffer, or none is.
fn lengths(kind: usize, form: usize, mut number: usize) -> Run {
    let call = line_of(kind, form, 2 * digit(&mut number, 2), 3);
    let mut run = of_call(&call, &[covers(kind, 1, 3), covers(kind, 2, 8)]);
    let off = |n: u64, way: usize| match way {
        0 => n,
        1 => n + 1,
        2 => n - 1,
        3 => 0,
        4 => n + (1 << 32),
        5 => n.wrapping_add(1 << 63),
        6 => u64::MAX,
        7 => u64::MAX - 1,
        8 => n + 2,
        _ => 2 * n,
    };
    run.lens = run.lens.iter().map(|n| off(*n, digit(&mut number, 10))).collect();
    match digit(&mut number, 3) {
        1 => run.subtables.push(0),
        2 => drop(run.subtables.pop()),
        _ => {}
    }
    run
}

/// Types that there are and aren't, on an empty line or not, with a subtable of the kind.
fn types(kind: usize, form: usize, mut number: usize) -> Run {
    let mut run = of_call(&line_of(kind, form, 2 * digit(&mut number, 2), 3), &[covers(kind, 15, 3)]);
    let low = digit(&mut number, 12) as u32;
    run.lookup_type = low + [0, 256, 65536, 1 << 31][digit(&mut number, 4)];
    run
}

/// Empty lines, with up to eight subtables of which some are bad.
fn empty(kind: usize, form: usize, mut number: usize) -> Run {
    let call = plain(kind, form, 0);
    let (count, bad) = (1 + digit(&mut number, MOST), digit(&mut number, 256));
    let part = |k: usize| if bad >> k & 1 == 1 { vec![0, 9] } else { covers(kind, 1, k as i16) };
    let parts: Vec<_> = (0..count).map(part).collect();
    of_call(&call, &parts)
}

/// Cursive attachments in a ring at each place of four slots, with every pattern of seen bits, of the glyphs that the
/// first of two subtables covers, and of those that its marks go on.
fn rings(kind: usize, form: usize, mut number: usize) -> Run {
    let mut call = line_of(kind, form, 4, digit(&mut number, 16));
    let first = digit(&mut number, 3);
    for (i, chain) in [(first, 1i16), (first + 1, -1)] {
        call.slot(i)[5] = 2;
        call.slot(i)[6..8].copy_from_slice(&chain.to_be_bytes());
    }
    let (own, bases) = (digit(&mut number, 16), digit(&mut number, 16));
    of_call(&call, &[covers_on(kind, own, bases, 3), covers(kind, 15, 8)])
}

/// Three glyphs that one became and a mark, or two and two, with every pattern of seen bits and of the glyphs that
/// each of two subtables' marks go on. What a search finds depends on these.
fn multiplied(kind: usize, form: usize, mut number: usize) -> Run {
    let mut call = line_of(kind, form, 4, digit(&mut number, 8));
    let many = 2 + digit(&mut number, 2);
    for (component, slot) in call.each_slot().take(many).enumerate() {
        slot[3] = component as u8;
        slot[4] |= 4;
    }
    let bases = [digit(&mut number, 8), digit(&mut number, 8)];
    let marks = 0b1111 << many & 0b1111;
    of_call(&call, &[covers_on(kind, marks, bases[0], 3), covers_on(kind, marks, bases[1], 8)])
}

/// A subtable of which the end can be cut off without being refused. Of single adjustment the coverage is the first
/// record too.
fn cuttable(kind: usize) -> Vec<u8> {
    let set = |second: u16| words(&[1, second, 30, 40]);
    match kind {
        SINGLE => words(&[2, 8, 15, 4, 1, 4, 0, 1, 2, 3]),
        PAIR => {
            let sets = [(10, set(1)), (12, set(2)), (14, set(3)), (16, set(0))];
            let tables = [vec![(2, covering(&glyphs(15)))], sets.to_vec()].concat();
            laid(words(&[1, 0, 4, 4, 4, 0, 0, 0, 0]), &tables)
        }
        _ => covers(kind, 15, 3),
    }
}

/// A subtable cut at its end, in front of another, of which it must see nothing.
fn cuts(kind: usize, form: usize, mut number: usize) -> Run {
    let call = line_of(kind, form, 4, digit(&mut number, 16));
    let mut first = cuttable(kind);
    first.truncate(first.len() - number);
    of_call(&call, &[first, covers(kind, 15, 8)])
}

/// The sets of the type that makes calls of this kind.
pub fn run_sets(kind: usize) -> Vec<RunSet> {
    let mut all = vec![
        RunSet { name: "four slots, two subtables", count: 16 * 16 * 16, make: four_slots },
        RunSet { name: "three slots, three subtables", count: 8 * 8 * 8 * 8, make: three_slots },
        RunSet { name: "two slots, up to eight subtables", count: 8 * 256, make: subtables },
        RunSet { name: "refusals", count: 64 * 3 * 3, make: refusals },
        RunSet { name: "places", count: 5 * 8 * 68, make: places },
        RunSet { name: "counts", count: 2 * 3 * 21, make: counts },
        RunSet { name: "lengths", count: 2 * 100 * 3, make: lengths },
        RunSet { name: "types", count: 2 * 12 * 4, make: types },
        RunSet { name: "empty lines", count: 8 * 256, make: empty },
        RunSet { name: "subtables cut", count: 16 * 16, make: cuts },
    ];
    if kind >= MARK_BASE {
        all.push(RunSet { name: "rings", count: 16 * 3 * 16 * 16, make: rings });
        all.push(RunSet { name: "glyphs that one became", count: 8 * 2 * 8 * 8, make: multiplied });
    }
    all
}
