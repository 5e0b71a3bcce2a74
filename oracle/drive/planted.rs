//! Small faults put between the driver and the port: what is asked or what is answered is changed as a slip in the code would change it. A run must
//! notice each, or the calls that are made are too tame.
use crate::call::*;
use crate::compare::plan;
use crate::lines::is_bad;
use crate::sides::Side;

/// A fault in some kinds, in every form that its table is for. `ask` changes the call that the port gets; `say` changes its answer, and also undoes what `ask` did
/// to bytes that a call leaves.
struct Fault {
    name: &'static str,
    kinds: &'static [usize],
    ask: fn(&mut Call),
    say: fn(&Call, &mut Answer),
}

const ALL: &[usize] = &[START, FINISH, SINGLE, PAIR, CURSIVE, MARK_BASE, MARK_LIGATURE, MARK_MARK];
const DIRECTED: &[usize] = &[FINISH, SINGLE, PAIR, CURSIVE, MARK_BASE, MARK_LIGATURE, MARK_MARK];
const APPLYING: &[usize] = &[SINGLE, PAIR, CURSIVE, MARK_BASE, MARK_LIGATURE, MARK_MARK];
const ATTACHING: &[usize] = &[CURSIVE, MARK_BASE, MARK_LIGATURE, MARK_MARK];
/// Those that are named a neighbour.
const NAMED: &[usize] = &[PAIR, CURSIVE, MARK_MARK];
const MARKS: &[usize] = &[MARK_BASE, MARK_LIGATURE, MARK_MARK];
/// Those that search for what the mark goes to.
const SEARCHING: &[usize] = &[MARK_BASE, MARK_LIGATURE];
const MOVES: &[usize] = &[TO_CLUSTERS, FROM_CLUSTERS];

fn as_is(_: &mut Call) {}
fn kept(_: &Call, _: &mut Answer) {}

/// Puts the bytes `from` to `to` of every slot back, as the call had them.
fn restore(c: &Call, a: &mut Answer, from: usize, to: usize) {
    let (n, m) = (c.stride(), c.written().1);
    for (was, is) in c.line.chunks_exact(n).zip(a.line.chunks_exact_mut(m)) {
        is[from..to].copy_from_slice(&was[from..to]);
    }
}

fn each_slot(c: &mut Call, change: fn(&mut [u8])) {
    c.each_slot().for_each(change);
}

/// The slots of an answer.
fn slots_of<'a>(c: &Call, a: &'a mut Answer) -> std::slice::ChunksExactMut<'a, u8> {
    a.line.chunks_exact_mut(c.written().1)
}

fn types(change: fn(u8) -> u8, c: &mut Call) {
    c.each_slot().for_each(|s| s[5] = change(s[5]));
}

/// The types of all slots but the current one, which a mark attachment sets.
fn restore_types(c: &Call, a: &mut Answer) {
    let n = c.stride();
    for i in 0..c.slots() {
        if c.kind == FINISH || i as u64 != c.index || a.status != APPLIED {
            a.line[n * i + 5] = c.line[n * i + 5];
        }
    }
}

fn chain(s: &[u8]) -> i16 {
    i16::from_be_bytes([s[6], s[7]])
}

fn bad_slot(c: &Call) -> bool {
    c.line.chunks_exact(c.stride()).any(is_bad)
}

/// Turns chains to one parent into chains to another, by slot number.
fn parents(c: &mut Call, change: fn(parent: i64, slots: i64) -> i64) {
    let slots = c.slots() as i64;
    for (i, s) in c.each_slot().enumerate() {
        if chain(s) != 0 {
            let to = change(i as i64 + i64::from(chain(s)), slots) - i as i64;
            s[6..8].copy_from_slice(&(to as i16).to_be_bytes());
        }
    }
}

/// The slot that a call is about: the last where it is about all.
fn own_slot(c: &Call) -> usize {
    let last = c.slots().saturating_sub(1);
    if is_applying(c.kind) {
        last.min(c.index as usize)
    } else {
        last
    }
}

/// Changes a byte of a cluster where the call has this status.
fn touch(c: &Call, a: &mut Answer, status: u64, slot: usize, byte: usize) {
    if a.status == status && c.slots() > 0 {
        a.line[FORMS[1] * slot + 24 + byte] ^= 1;
    }
}

fn put_cluster(slot: &mut [u8], cluster: usize) {
    slot[24..].copy_from_slice(&(cluster as u32).to_be_bytes());
}

/// The line with slots of other bytes; what they lack is 0.
fn resized(line: &[u8], from: usize, to: usize) -> Vec<u8> {
    line.chunks(from).flat_map(|s| s.iter().copied().chain(std::iter::repeat(0)).take(to)).collect()
}

/// Is the line whole slots of this size, as the call says?
fn is_whole(c: &Call, size: usize) -> bool {
    c.size == size as u64 && c.line.len() % size == 0
}

/// A size that there isn't is taken as if a slot had a cluster; and the line that comes back, as it was lent.
fn allow(c: &mut Call, size: usize) {
    if is_whole(c, size) {
        c.line = resized(&c.line, size, FORMS[1]);
        c.size = FORMS[1] as u64;
    }
}

fn allowed(c: &Call, a: &mut Answer, size: usize) {
    if is_whole(c, size) {
        a.line = resized(&a.line, FORMS[1], size);
    }
}

/// The length that a move's target must have.
fn moved_len(c: &Call) -> usize {
    c.slots() * c.written().1
}

/// Do clusters count the slots from this number on?
fn counts_from(c: &Call, first: u32) -> bool {
    c.line.chunks_exact(FORMS[1]).zip(first..).all(|(s, k)| s[24..] == k.to_be_bytes())
}

fn count(c: &mut Call) {
    c.each_slot().enumerate().for_each(|(i, s)| put_cluster(s, i));
}

fn refuse(c: &Call, a: &mut Answer, number: u64) {
    (a.status, a.refusal) = (REFUSED, number);
    a.line = c.written().0.to_vec();
}

fn number16(t: &[u8], at: usize) -> u16 {
    t.get(at..at + 2).map_or(0, |b| u16::from_be_bytes([b[0], b[1]]))
}

/// Where the glyph of a slot stands in the coverage that the subtable names at a place.
fn covered(c: &Call, place: usize, slot: u64) -> Option<usize> {
    let glyph = number16(&c.line, c.stride() * slot as usize);
    let at = usize::from(number16(&c.subtable, place));
    let list = c.subtable.get(at..).filter(|_| at > 0)?;
    (0..usize::from(number16(list, 2))).find_map(|k| {
        let [first, last, index] = match number16(list, 0) {
            1 => [number16(list, 4 + 2 * k), number16(list, 4 + 2 * k), k as u16],
            _ => [4, 6, 8].map(|field| number16(list, field + 6 * k)),
        };
        (first..=last).contains(&glyph).then(|| usize::from(index) + usize::from(glyph - first))
    })
}

/// Ligature id and component.
type Lig = (u8, u8);

/// The earlier slot and the one at hand, where both are named and in order.
fn two(c: &Call) -> Option<[usize; 2]> {
    let named = c.missing == 0 && c.neighbour < c.index && c.index < c.slots() as u64 && !bad_slot(c);
    named.then_some([c.neighbour as usize, c.index as usize])
}

fn lig(c: &Call, slot: usize) -> Lig {
    let at = c.stride() * slot;
    (c.line[at + 2], c.line[at + 3])
}

fn flags(c: &Call, slot: usize) -> u8 {
    c.line[c.stride() * slot + 4]
}

/// Does one of two marks go on the other?
fn fits(earlier: Lig, own: Lig) -> bool {
    if earlier.0 == own.0 {
        own.0 == 0 || earlier.1 == own.1
    } else {
        is_ligature(earlier) || is_ligature(own)
    }
}

fn is_ligature(mark: Lig) -> bool {
    mark.0 > 0 && mark.1 == 0
}

/// Is the earlier slot named, and declined for its mark bit, its id or its component?
fn clashes(c: &Call) -> bool {
    two(c).is_some_and(|[earlier, own]| flags(c, earlier) & 2 == 0 || !fits(lig(c, earlier), lig(c, own)))
}

/// Lets the two slots fit exactly where a slip would.
fn fit(c: &mut Call, slip: fn(Lig, Lig) -> bool) {
    if let Some([earlier, own]) = two(c) {
        let fits = slip(lig(c, earlier), lig(c, own));
        c.slot(earlier)[2..4].copy_from_slice(&[1, 1]);
        c.slot(own)[2..4].copy_from_slice(&[1, if fits { 1 } else { 2 }]);
    }
}

fn unfit(c: &Call, a: &mut Answer) {
    restore(c, a, 2, 4);
}

/// Sets the earlier slot's mark bit where a slip would find it set, by the flags of both.
fn mark(c: &mut Call, slip: fn(u8, u8) -> bool) {
    if let Some([earlier, own]) = two(c) {
        let is_mark = slip(flags(c, earlier), flags(c, own));
        let flags = &mut c.slot(earlier)[4];
        *flags = *flags & 5 | u8::from(is_mark) << 1;
    }
}

fn unmark(c: &Call, a: &mut Answer) {
    restore(c, a, 4, 5);
}

/// A decline, without a hazard or with a concat from a slot to the one at hand.
fn decline(c: &Call, a: &mut Answer, from: Option<u64>) {
    (a.status, a.refusal, a.attached, a.next) = (DECLINED, 0, 0, 0);
    a.hazards = from.is_some().into();
    a.hazard = [from.map_or([0; 3], |from| [2, from, c.index + 1]), [0; 3]];
    a.line = c.line.clone();
}

fn swap(c: &mut Call, one: usize, other: usize) {
    if c.subtable.len() >= other + 2 {
        (0..2).for_each(|k| c.subtable.swap(one + k, other + k));
    }
}

/// So many rows of the array as fit.
fn fewer_rows(c: &mut Call) {
    let (at, classes) = (usize::from(number16(&c.subtable, 10)), usize::from(number16(&c.subtable, 6)));
    if c.subtable.len() >= 12 && at > 0 && classes > 0 && at + 2 <= c.subtable.len() {
        let room = (c.subtable.len() - at - 2) / (2 * classes);
        let rows = room.min(number16(&c.subtable, at).into()) as u16;
        c.subtable[at..at + 2].copy_from_slice(&rows.to_be_bytes());
    }
}

/// Is the mark's anchor offset 0?
fn zero_anchor(c: &Call) -> bool {
    let array = usize::from(number16(&c.subtable, 8));
    covered(c, 2, c.index).is_some_and(|k| number16(&c.subtable, array + 4 + 4 * k) == 0)
}

/// Adds to an offset what stood there.
fn add_old(c: &Call, a: &mut Answer, field: usize) {
    let at = c.stride() * c.index as usize + field;
    let of = |line: &[u8]| i32::from_be_bytes(line[at..at + 4].try_into().unwrap());
    let sum = of(&a.line).wrapping_add(of(&c.line));
    a.line[at..at + 4].copy_from_slice(&sum.to_be_bytes());
}

/// Faults in either form.
#[rustfmt::skip]
const FAULTS: &[Fault] = &[
    Fault { name: "the last slot keeps its type", kinds: &[START], ask: as_is, say: |c, a| if c.slots() > 0 { let at = c.stride() * (c.slots() - 1) + 5; a.line[at] = c.line[at] } },
    Fault { name: "a chain below 0 keeps its low byte", kinds: &[START], ask: as_is, say: |c, a| for i in 0..c.slots() { let at = c.stride() * i + 6; if c.line[at] > 127 { a.line[at + 1] = c.line[at + 1] } } },
    Fault { name: "slots from 1,000 on are not started", kinds: &[START], ask: as_is, say: |c, a| for k in 1000 * c.stride()..c.line.len() { a.line[k] = c.line[k] } },
    Fault { name: "1,024 slots are one too many", kinds: ALL, ask: as_is, say: |c, a| if c.slots() == 1024 { refuse(c, a, 1) } },
    Fault { name: "1,025 slots are allowed", kinds: &[START, FINISH], ask: as_is, say: |c, a| if c.line.len() == 1025 * c.stride() && !bad_slot(c) { (a.status, a.refusal) = (DONE, 0) } },
    Fault { name: "a component of 16 is allowed", kinds: ALL, ask: |c| each_slot(c, |s| if s[3] == 16 { s[3] = 15 }), say: |c, a| restore(c, a, 3, 4) },
    Fault { name: "flag bit 3 is allowed", kinds: ALL, ask: |c| each_slot(c, |s| s[4] &= 0xF7), say: |c, a| restore(c, a, 4, 5) },
    Fault { name: "refusal 4 comes before 1", kinds: ALL, ask: as_is, say: |c, a| if a.refusal == 1 && bad_slot(c) { a.refusal = 4 } },
    Fault { name: "refusal 3 comes before 2", kinds: &[FINISH], ask: as_is, say: |c, a| if a.refusal == 2 && c.limit > 64 { a.refusal = 3 } },
    Fault { name: "refusal 4 comes before 3", kinds: &[FINISH], ask: as_is, say: |c, a| if a.refusal == 3 && bad_slot(c) { a.refusal = 4 } },
    Fault { name: "a refused line is started", kinds: &[START], ask: as_is, say: |c, a| if a.status == REFUSED { slots_of(c, a).for_each(|s| s[5] = 0) } },

    Fault { name: "limit 64 is 63", kinds: &[FINISH], ask: |c| if c.limit == 64 { c.limit = 63 }, say: kept },
    Fault { name: "a limit is one more", kinds: &[FINISH], ask: |c| if c.limit < 64 { c.limit += 1 }, say: kept },
    Fault { name: "limit 65 is allowed", kinds: &[FINISH], ask: |c| if c.limit == 65 { c.limit = 64 }, say: kept },
    Fault { name: "type 3 is cursive", kinds: &[FINISH], ask: |c| types(|t| if t == 3 { 2 } else { t }, c), say: restore_types },
    Fault { name: "type 3 is a mark", kinds: &[FINISH], ask: |c| types(|t| if t == 3 { 1 } else { t }, c), say: restore_types },
    Fault { name: "only two bits of a type are looked at", kinds: &[FINISH], ask: |c| types(|t| t & 3, c), say: restore_types },
    Fault { name: "the flag is its low byte", kinds: &[FINISH], ask: |c| c.attachments &= 255, say: kept },
    Fault { name: "without the flag chains are cleared", kinds: &[FINISH], ask: as_is, say: |c, a| if c.attachments == 0 && a.status == DONE { slots_of(c, a).for_each(|s| s[6..8].fill(0)) } },
    Fault { name: "the first slot's chain stays", kinds: &[FINISH], ask: as_is, say: |c, a| if c.slots() > 0 { let at = 6; a.line[at] = c.line[at]; a.line[at + 1] = c.line[at + 1] } },
    Fault { name: "a parent just past the end is the last slot", kinds: &[FINISH], ask: |c| parents(c, |p, n| if p == n { n - 1 } else { p }), say: |c, a| if a.status == REFUSED || c.attachments == 0 { restore(c, a, 6, 8) } },
    Fault { name: "a parent just before the start is the first slot", kinds: &[FINISH], ask: |c| parents(c, |p, _| if p == -1 { 0 } else { p }), say: |c, a| if a.status == REFUSED || c.attachments == 0 { restore(c, a, 6, 8) } },
    Fault { name: "an advance of the largest number is one less", kinds: &[FINISH], ask: |c| each_slot(c, |s| if s[8..12] == [127, 255, 255, 255] { s[11] = 254 }), say: |c, a| restore(c, a, 8, 16) },
    Fault { name: "an advance of the smallest number is one more", kinds: &[FINISH], ask: |c| each_slot(c, |s| if s[8..12] == [128, 0, 0, 0] { s[11] = 1 }), say: |c, a| restore(c, a, 8, 16) },
    Fault { name: "bottom to top is top to bottom", kinds: &[FINISH, CURSIVE], ask: |c| if c.direction == 3 { c.direction = 2 }, say: kept },
    Fault { name: "right to left is left to right", kinds: &[FINISH, CURSIVE], ask: |c| if c.direction == 1 { c.direction = 0 }, say: kept },

    Fault { name: "top to bottom is left to right", kinds: APPLYING, ask: |c| if c.direction == 2 { c.direction = 0 }, say: kept },
    Fault { name: "s of 32,768 is 32,767", kinds: APPLYING, ask: |c| if c.s == 32768 { c.s = 32767 }, say: kept },
    Fault { name: "u of 16 is 17", kinds: APPLYING, ask: |c| if c.u == 16 { c.u = 17 }, say: kept },
    Fault { name: "s of 32,769 is allowed", kinds: APPLYING, ask: |c| if c.s == 32769 { c.s = 32768 }, say: kept },
    Fault { name: "u of 15 is allowed", kinds: APPLYING, ask: |c| if c.u == 15 { c.u = 16 }, say: kept },
    Fault { name: "an index is cut to 32 bits", kinds: APPLYING, ask: |c| c.index &= 0xFFFF_FFFF, say: kept },
    Fault { name: "a neighbour is cut to 32 bits", kinds: NAMED, ask: |c| c.neighbour &= 0xFFFF_FFFF, say: kept },
    Fault { name: "only 1 means missing", kinds: NAMED, ask: |c| if c.missing > 1 { c.missing = 0 }, say: kept },
    Fault { name: "a bound above the slot count is allowed", kinds: NAMED, ask: |c| if c.missing != 0 && c.neighbour == c.slots() as u64 + 1 { c.neighbour -= 1 }, say: kept },
    Fault { name: "any bit of the lookup flag is RIGHT_TO_LEFT", kinds: &[CURSIVE], ask: |c| c.lookup_flag = u32::from(c.lookup_flag != 0), say: kept },
    Fault { name: "the subtable's last byte is not read", kinds: APPLYING, ask: |c| drop(c.subtable.pop()), say: kept },
    Fault { name: "a subtable of 65,537 bytes is allowed", kinds: APPLYING, ask: |c| if c.subtable.len() == 65537 { c.subtable.truncate(65536) }, say: kept },
    Fault { name: "the high byte of a value format is not looked at", kinds: &[SINGLE, PAIR], ask: |c| if c.subtable.len() > 5 { c.subtable[4] = 0 }, say: kept },
    Fault { name: "the high byte of the format is not looked at", kinds: APPLYING, ask: |c| if !c.subtable.is_empty() { c.subtable[0] = 0 }, say: kept },
    Fault { name: "y advance is not looked at in a vertical line", kinds: &[SINGLE], ask: as_is, say: |c, a| if c.direction > 1 { restore(c, a, 12, 16) } },
    Fault { name: "a record of zeros is a decline", kinds: &[SINGLE], ask: as_is, say: |c, a| if a.status == APPLIED && a.line == c.line { (a.status, a.next) = (DECLINED, 0) } },
    Fault { name: "a negative number in the table is positive", kinds: &[SINGLE], ask: |c| if number16(&c.subtable, 0) == 1 && number16(&c.subtable, 6) == 0xFFFF { c.subtable[6] = 0; c.subtable[7] = 1 }, say: kept },
    Fault { name: "two hazards change places", kinds: &[PAIR], ask: as_is, say: |_, a| if a.hazards == 2 { a.hazard.swap(0, 1) } },
    Fault { name: "next is second although it has a record", kinds: &[PAIR], ask: as_is, say: |_, a| if a.hazards == 2 { a.next -= 1 } },
    Fault { name: "a hazard ends with the line", kinds: &[PAIR], ask: as_is, say: |c, a| for h in &mut a.hazard { h[2] = h[2].min(c.slots() as u64) } },
    Fault { name: "a pair of zeros is a break", kinds: &[PAIR], ask: as_is, say: |_, a| if a.status == APPLIED { a.hazard[0][0] = 1 } },
    Fault { name: "an empty range is no hazard", kinds: NAMED, ask: as_is, say: |_, a| if a.hazards == 1 && a.hazard[0][1] >= a.hazard[0][2] { a.hazards = 0; a.hazard[0] = [0; 3] } },
    Fault { name: "attaching is not reported", kinds: ATTACHING, ask: as_is, say: |_, a| a.attached = 0 },
    Fault { name: "the parent's chain is left", kinds: &[CURSIVE], ask: as_is, say: |c, a| if a.status == APPLIED { let p = c.stride() * if c.lookup_flag & 1 == 1 { c.index } else { c.neighbour } as usize; a.line[p + 6..p + 8].copy_from_slice(&c.line[p + 6..p + 8]) } },
    Fault { name: "the seen bit is not looked at", kinds: SEARCHING, ask: |c| each_slot(c, |s| if s[4] < 8 { s[4] |= 1 }), say: |c, a| restore(c, a, 4, 5) },
    Fault { name: "the multiplied bit is not looked at", kinds: SEARCHING, ask: |c| each_slot(c, |s| if s[4] < 8 { s[4] &= 3 }), say: |c, a| restore(c, a, 4, 5) },
    Fault { name: "the mark bit is not looked at", kinds: &[MARK_BASE], ask: |c| each_slot(c, |s| if s[4] < 8 { s[4] &= 5 }), say: |c, a| restore(c, a, 4, 5) },
    Fault { name: "ligature ids have two bits", kinds: &[MARK_LIGATURE, MARK_MARK], ask: |c| each_slot(c, |s| if s[2] < 8 { s[2] &= 3 }), say: |c, a| restore(c, a, 2, 3) },
    Fault { name: "components have three bits", kinds: &[MARK_LIGATURE, MARK_MARK], ask: |c| each_slot(c, |s| if s[3] < 16 { s[3] &= 7 }), say: |c, a| restore(c, a, 3, 4) },
    Fault { name: "type 3 is not walked", kinds: MARKS, ask: |c| types(|t| if t == 3 { 1 } else { t }, c), say: restore_types },
    Fault { name: "an endless walk is a decline", kinds: MARKS, ask: as_is, say: |_, a| if a.refusal == 7 { (a.status, a.refusal) = (DECLINED, 0) } },
];

/// Faults of marks on marks.
#[rustfmt::skip]
const STACKING: &[Fault] = &[
    Fault { name: "equal ids fit whatever the components", kinds: &[MARK_MARK], ask: |c| fit(c, |e, o| e.0 == o.0 || is_ligature(e) || is_ligature(o)), say: unfit },
    Fault { name: "equal components fit whatever the ids", kinds: &[MARK_MARK], ask: |c| fit(c, |e, o| e.1 == o.1 || fits(e, o)), say: unfit },
    Fault { name: "id 0 wants equal components", kinds: &[MARK_MARK], ask: |c| fit(c, |e, o| if e.0 == o.0 { e.1 == o.1 } else { fits(e, o) }), say: unfit },
    Fault { name: "component 0 fits any of its id", kinds: &[MARK_MARK], ask: |c| fit(c, |e, o| e.0 == o.0 && (e.1 == 0 || o.1 == 0) || fits(e, o)), say: unfit },
    Fault { name: "ids that differ don't fit", kinds: &[MARK_MARK], ask: |c| fit(c, |e, o| e.0 == o.0 && fits(e, o)), say: unfit },
    Fault { name: "an id above 0 is a ligature with any component", kinds: &[MARK_MARK], ask: |c| fit(c, |e, o| e.0 != o.0 || fits(e, o)), say: unfit },
    Fault { name: "component 0 is a ligature with any id", kinds: &[MARK_MARK], ask: |c| fit(c, |e, o| e.0 != o.0 && (e.1 == 0 || o.1 == 0) || fits(e, o)), say: unfit },
    Fault { name: "one has the id and the other component 0", kinds: &[MARK_MARK], ask: |c| fit(c, |e, o| if e.0 == o.0 { fits(e, o) } else { e.0 > 0 && o.1 == 0 || o.0 > 0 && e.1 == 0 }), say: unfit },
    Fault { name: "only the slot at hand can be a ligature", kinds: &[MARK_MARK], ask: |c| fit(c, |e, o| if e.0 == o.0 { fits(e, o) } else { is_ligature(o) }), say: unfit },
    Fault { name: "only the earlier slot can be a ligature", kinds: &[MARK_MARK], ask: |c| fit(c, |e, o| if e.0 == o.0 { fits(e, o) } else { is_ligature(e) }), say: unfit },
    Fault { name: "both must be ligatures", kinds: &[MARK_MARK], ask: |c| fit(c, |e, o| if e.0 == o.0 { fits(e, o) } else { is_ligature(e) && is_ligature(o) }), say: unfit },

    Fault { name: "the earlier's mark bit is not looked at", kinds: &[MARK_MARK], ask: |c| mark(c, |_, _| true), say: unmark },
    Fault { name: "the mark bit of the slot at hand is looked at too", kinds: &[MARK_MARK], ask: |c| mark(c, |e, o| e & o & 2 > 0), say: unmark },
    Fault { name: "the mark bit is looked at in the slot at hand", kinds: &[MARK_MARK], ask: |c| mark(c, |_, o| o & 2 > 0), say: unmark },
    Fault { name: "the earlier's seen bit is looked at too", kinds: &[MARK_MARK], ask: |c| mark(c, |e, _| e & 3 == 3), say: unmark },
    Fault { name: "a multiplied mark is none", kinds: &[MARK_MARK], ask: |c| mark(c, |e, _| e & 6 == 2), say: unmark },
    Fault { name: "what is no mark is passed over", kinds: &[MARK_MARK], ask: |c| while two(c).is_some_and(|[earlier, _]| earlier > 0 && flags(c, earlier) & 2 == 0) { c.neighbour -= 1 }, say: kept },
    Fault { name: "the slot before is the earlier one", kinds: &[MARK_MARK], ask: |c| if two(c).is_some() { c.neighbour = c.index - 1 }, say: kept },
    Fault { name: "a slot can be its own earlier one", kinds: &[MARK_MARK], ask: |c| if c.missing == 0 && c.neighbour == c.index && c.index > 0 { c.neighbour -= 1 }, say: kept },
    Fault { name: "a later slot can be the earlier one", kinds: &[MARK_MARK], ask: |c| if c.missing == 0 && c.neighbour > c.index && c.neighbour < c.slots() as u64 { std::mem::swap(&mut c.neighbour, &mut c.index) }, say: kept },

    Fault { name: "a concat starts with the slot at hand", kinds: &[MARK_MARK], ask: as_is, say: |c, a| if a.hazard[0][0] == 2 && two(c).is_some() { a.hazard[0][1] = c.index } },
    Fault { name: "a concat ends before the slot at hand", kinds: &[MARK_MARK], ask: as_is, say: |_, a| if a.hazard[0][0] == 2 { a.hazard[0][2] -= 1 } },
    Fault { name: "a break starts behind the earlier", kinds: &[MARK_MARK], ask: as_is, say: |_, a| if a.status == APPLIED { a.hazard[0][1] += 1 } },
    Fault { name: "the bound of a missing one is told as 0", kinds: &[MARK_MARK], ask: as_is, say: |c, a| if a.hazards > 0 && c.missing != 0 { a.hazard[0][1] = 0 } },
    Fault { name: "a missing one has no hazard", kinds: &[MARK_MARK], ask: as_is, say: |c, a| if a.status == DECLINED && c.missing != 0 { decline(c, a, None) } },
    Fault { name: "what is no mark has no hazard", kinds: &[MARK_MARK], ask: as_is, say: |c, a| if a.status == DECLINED && two(c).is_some_and(|[earlier, _]| flags(c, earlier) & 2 == 0) { decline(c, a, None) } },
    Fault { name: "what doesn't fit has no hazard", kinds: &[MARK_MARK], ask: as_is, say: |c, a| if a.status == DECLINED && two(c).is_some_and(|[earlier, own]| !fits(lig(c, earlier), lig(c, own)) && flags(c, earlier) & 2 > 0) { decline(c, a, None) } },
    Fault { name: "an uncovered earlier mark has a hazard", kinds: &[MARK_MARK], ask: as_is, say: |c, a| if a.status == DECLINED && two(c).is_some() && covered(c, 2, c.index).is_some() && covered(c, 4, c.neighbour).is_none() { decline(c, a, Some(c.neighbour)) } },
    Fault { name: "every decline has a hazard", kinds: &[MARK_MARK], ask: as_is, say: |c, a| if a.status == DECLINED { decline(c, a, Some(c.neighbour)) } },
    Fault { name: "the earlier's coverage comes before its mark bit", kinds: &[MARK_MARK], ask: as_is, say: |c, a| if a.status == DECLINED && two(c).is_some() && covered(c, 4, c.neighbour).is_none() { decline(c, a, None) } },
    Fault { name: "the earlier's coverage comes before ids", kinds: &[MARK_MARK], ask: as_is, say: |c, a| if a.status == DECLINED && two(c).is_some_and(|[earlier, _]| flags(c, earlier) & 2 > 0) && covered(c, 4, c.neighbour).is_none() { decline(c, a, None) } },
    Fault { name: "no coverage of earlier marks comes first", kinds: &[MARK_MARK], ask: as_is, say: |c, a| if a.status == DECLINED && number16(&c.subtable, 4) == 0 { decline(c, a, None) } },
    Fault { name: "the own coverage comes last", kinds: &[MARK_MARK], ask: as_is, say: |c, a| if a.status == DECLINED && (c.missing != 0 || clashes(c)) { decline(c, a, Some(c.neighbour)) } },
    Fault { name: "ids come last", kinds: &[MARK_MARK], ask: |c| { mark(c, |_, _| true); fit(c, |_, _| true) }, say: |c, a| if a.status == APPLIED && clashes(c) { decline(c, a, Some(c.neighbour)) } else { restore(c, a, 2, 5) } },
    Fault { name: "an endless walk comes before ids", kinds: &[MARK_MARK], ask: |c| if let Some([earlier, _]) = two(c) { if c.slot(earlier)[5] & 2 > 0 { mark(c, |_, _| true); fit(c, |_, _| true) } }, say: |c, a| if a.status != REFUSED && clashes(c) && covered(c, 2, c.index).is_some() { decline(c, a, Some(c.neighbour)) } else { restore(c, a, 2, 5) } },

    Fault { name: "the two coverages change places", kinds: &[MARK_MARK], ask: |c| swap(c, 2, 4), say: kept },
    Fault { name: "the two arrays change places", kinds: &[MARK_MARK], ask: |c| swap(c, 8, 10), say: kept },
    Fault { name: "one coverage is for both", kinds: &[MARK_MARK], ask: |c| if c.subtable.len() > 5 { c.subtable.copy_within(2..4, 4) }, say: kept },
    Fault { name: "the earlier's coverage may have any format", kinds: &[MARK_MARK], ask: |c| { let at = usize::from(number16(&c.subtable, 4)); if at > 0 && c.subtable.len() > at + 1 && !(1..=2).contains(&number16(&c.subtable, at)) { c.subtable[4..6].fill(0) } }, say: kept },
    Fault { name: "an array of rows is read as far as it goes", kinds: &[MARK_MARK], ask: fewer_rows, say: kept },
    Fault { name: "a mark's anchor offset of 0 is none", kinds: &[MARK_MARK], ask: as_is, say: |c, a| if a.status == APPLIED && zero_anchor(c) { decline(c, a, None) } },
    Fault { name: "the walk ends at the earlier mark", kinds: &[MARK_MARK], ask: |c| types(|t| t & 253, c), say: restore_types },
    Fault { name: "the walk goes through marks", kinds: &[MARK_MARK], ask: |c| types(|t| if t == 1 { 3 } else { t }, c), say: restore_types },
    Fault { name: "the chain leads to the slot before", kinds: &[MARK_MARK], ask: as_is, say: |c, a| if a.status == APPLIED { let at = c.stride() * c.index as usize + 6; a.line[at..at + 2].fill(255) } },
    Fault { name: "the type has what it had", kinds: &[MARK_MARK], ask: as_is, say: |c, a| if a.status == APPLIED { let at = c.stride() * c.index as usize + 5; a.line[at] |= c.line[at] } },
    Fault { name: "the x offset is added to", kinds: &[MARK_MARK], ask: as_is, say: |c, a| if a.status == APPLIED { add_old(c, a, 16) } },
    Fault { name: "the y offset is added to", kinds: &[MARK_MARK], ask: as_is, say: |c, a| if a.status == APPLIED { add_old(c, a, 20) } },
    Fault { name: "next is the slot at hand", kinds: &[MARK_MARK], ask: as_is, say: |_, a| if a.status == APPLIED { a.next -= 1 } },
];

/// Faults where slots have clusters.
#[rustfmt::skip]
const WITH_CLUSTERS: &[Fault] = &[
    Fault { name: "starting clears clusters", kinds: &[START], ask: as_is, say: |c, a| if a.status == DONE { slots_of(c, a).for_each(|s| s[24..].fill(0)) } },
    Fault { name: "a done call changes a cluster's first byte", kinds: &[START, FINISH], ask: as_is, say: |c, a| touch(c, a, DONE, own_slot(c), 0) },
    Fault { name: "a done call changes a cluster's last byte", kinds: &[START, FINISH], ask: as_is, say: |c, a| touch(c, a, DONE, 0, 3) },
    Fault { name: "an applied call changes a cluster's first byte", kinds: APPLYING, ask: as_is, say: |c, a| touch(c, a, APPLIED, own_slot(c), 0) },
    Fault { name: "an applied call changes a cluster's last byte", kinds: APPLYING, ask: as_is, say: |c, a| touch(c, a, APPLIED, 0, 3) },
    Fault { name: "a declined call changes a cluster", kinds: APPLYING, ask: as_is, say: |c, a| touch(c, a, DECLINED, own_slot(c), 3) },
    Fault { name: "a refused call changes a cluster", kinds: ALL, ask: as_is, say: |c, a| touch(c, a, REFUSED, 0, 3) },
    Fault { name: "the cluster is taken for the y offset", kinds: DIRECTED, ask: |c| each_slot(c, |s| s[20..].rotate_left(4)), say: |c, a| slots_of(c, a).for_each(|s| s[20..].rotate_left(4)) },
    Fault { name: "the cluster is taken for the glyph", kinds: APPLYING, ask: |c| each_slot(c, |s| s.copy_within(26.., 0)), say: |c, a| restore(c, a, 0, 2) },
    Fault { name: "a cluster above 65,535 is a bad slot", kinds: ALL, ask: as_is, say: |c, a| if !(1..=3).contains(&a.refusal) && c.line.chunks_exact(FORMS[1]).any(|s| s[24..26] != [0, 0]) { refuse(c, a, 4) } },
    Fault { name: "a line above 24,576 bytes is refused", kinds: ALL, ask: as_is, say: |c, a| if c.line.len() > 24_576 { refuse(c, a, 1) } },
    Fault { name: "a length that is no multiple of 24 is refused", kinds: ALL, ask: as_is, say: |c, a| if c.line.len() % 24 != 0 { refuse(c, a, 1) } },
    Fault { name: "any multiple of 4 is a length", kinds: ALL, ask: |c| if c.line.len() % 4 == 0 { c.line.truncate(c.slots() * FORMS[1]) }, say: |c, a| a.line.extend(&c.line[a.line.len()..]) },
];

/// Faults where the size is no form's.
#[rustfmt::skip]
const OTHER_SIZES: &[Fault] = &[
    Fault { name: "size 26 is allowed", kinds: ALL, ask: |c| allow(c, 26), say: |c, a| allowed(c, a, 26) },
    Fault { name: "size 32 is allowed", kinds: ALL, ask: |c| allow(c, 32), say: |c, a| allowed(c, a, 32) },
    Fault { name: "a size is cut to 32 bits", kinds: ALL, ask: |c| c.size &= 0xFFFF_FFFF, say: kept },
    Fault { name: "a size is cut to 8 bits", kinds: ALL, ask: |c| c.size &= 255, say: kept },
    Fault { name: "size 0 is 24", kinds: ALL, ask: |c| if c.size == 0 { c.size = 24 }, say: kept },
    Fault { name: "sizes above 28 are 28", kinds: ALL, ask: |c| c.size = c.size.min(28), say: kept },
    Fault { name: "the direction is looked at before the size", kinds: DIRECTED, ask: as_is, say: |c, a| if c.direction > 3 { a.refusal = 2 } },
];

/// Faults of the moves.
#[rustfmt::skip]
const MOVING: &[Fault] = &[
    Fault { name: "a cluster is one more", kinds: &[TO_CLUSTERS], ask: as_is, say: |c, a| if a.status == DONE { slots_of(c, a).enumerate().for_each(|(i, s)| put_cluster(s, i + 1)) } },
    Fault { name: "a cluster has its bytes in the other order", kinds: &[TO_CLUSTERS], ask: as_is, say: |c, a| if a.status == DONE { slots_of(c, a).for_each(|s| s[24..].reverse()) } },
    Fault { name: "a cluster has 8 bits", kinds: &[TO_CLUSTERS], ask: as_is, say: |c, a| if a.status == DONE { slots_of(c, a).for_each(|s| s[26] = 0) } },
    Fault { name: "clusters are wanted from 1", kinds: &[FROM_CLUSTERS], ask: as_is, say: |c, a| if a.status == DONE && c.slots() > 0 { refuse(c, a, 10) } },
    Fault { name: "clusters from 1 are taken", kinds: &[FROM_CLUSTERS], ask: |c| if counts_from(c, 1) { count(c) }, say: kept },
    Fault { name: "a wrong cluster is taken", kinds: &[FROM_CLUSTERS], ask: count, say: kept },
    Fault { name: "the last cluster is not looked at", kinds: &[FROM_CLUSTERS], ask: |c| if let Some((i, s)) = c.each_slot().enumerate().last() { put_cluster(s, i) }, say: kept },
    Fault { name: "a cluster's first byte is not looked at", kinds: &[FROM_CLUSTERS], ask: |c| each_slot(c, |s| s[24] = 0), say: kept },
    Fault { name: "a cluster's last byte is not looked at", kinds: &[FROM_CLUSTERS], ask: |c| c.each_slot().enumerate().for_each(|(i, s)| s[27] = i as u8), say: kept },
    Fault { name: "a target too long is taken", kinds: MOVES, ask: |c| c.subtable.truncate(moved_len(c)), say: |c, a| a.line.extend(&c.subtable[a.line.len()..]) },
    Fault { name: "a target too short is taken", kinds: MOVES, ask: |c| if c.subtable.len() < moved_len(c) { c.subtable.resize(moved_len(c), 0) }, say: |c, a| a.line.truncate(c.subtable.len()) },
    Fault { name: "a target one byte too long is taken", kinds: MOVES, ask: |c| if c.subtable.len() == moved_len(c) + 1 { c.subtable.pop(); }, say: |c, a| a.line.extend(&c.subtable[a.line.len()..]) },
    Fault { name: "a refusal writes the first slot", kinds: MOVES, ask: as_is, say: |c, a| if a.status == REFUSED && c.slots() > 0 { a.line.iter_mut().zip(&c.line[..24]).for_each(|(to, from)| *to = *from) } },
    Fault { name: "a refusal clears the target", kinds: MOVES, ask: as_is, say: |_, a| if a.status == REFUSED { a.line.fill(0) } },
    Fault { name: "a wrong cluster is found after writing", kinds: &[FROM_CLUSTERS], ask: as_is, say: |c, a| if a.refusal == 10 && a.line.len() == moved_len(c) { restore(c, a, 0, 24) } },
    Fault { name: "the last slot is not moved", kinds: MOVES, ask: as_is, say: |c, a| if a.status == DONE && c.slots() > 0 { let at = moved_len(c) - c.written().1; a.line[at..].copy_from_slice(&c.subtable[at..]) } },
    Fault { name: "the y offset is not moved", kinds: MOVES, ask: as_is, say: |c, a| if a.status == DONE { let to = c.written().1; for (s, was) in slots_of(c, a).zip(c.subtable.chunks(to)) { s[20..24].copy_from_slice(&was[20..24]) } } },
    Fault { name: "types are forgotten", kinds: MOVES, ask: as_is, say: |c, a| if a.status == DONE { slots_of(c, a).for_each(|s| s[5] = 0) } },
    Fault { name: "an empty line is refused", kinds: MOVES, ask: as_is, say: |c, a| if c.line.is_empty() { refuse(c, a, 1) } },
    Fault { name: "1,024 slots are one too many", kinds: MOVES, ask: as_is, say: |c, a| if c.slots() == 1024 { refuse(c, a, 1) } },
    Fault { name: "a length that is whole slots of the other form is taken", kinds: MOVES, ask: as_is, say: |c, a| if a.refusal == 1 && c.line.len() % c.written().1 == 0 && c.slots() <= 1024 { (a.status, a.refusal) = (DONE, 0) } },
    Fault { name: "1,025 slots are allowed", kinds: MOVES, ask: as_is, say: |c, a| if c.line.len() == 1025 * c.stride() && !bad_slot(c) { (a.status, a.refusal) = (DONE, 0) } },
    Fault { name: "a component of 16 is allowed", kinds: MOVES, ask: |c| each_slot(c, |s| if s[3] == 16 { s[3] = 15 }), say: |c, a| if a.status == DONE { restore(c, a, 3, 4) } },
    Fault { name: "refusal 4 comes before 1", kinds: MOVES, ask: as_is, say: |c, a| if a.refusal == 1 && bad_slot(c) { a.refusal = 4 } },
    Fault { name: "refusal 10 comes before 4", kinds: MOVES, ask: as_is, say: |c, a| if a.refusal == 4 && c.subtable.len() != moved_len(c) { a.refusal = 10 } },
    Fault { name: "a wrong cluster comes before 4", kinds: &[FROM_CLUSTERS], ask: as_is, say: |c, a| if a.refusal == 4 && !counts_from(c, 0) { a.refusal = 10 } },
];

/// The tables, each with the forms that its faults concern.
const TABLES: [(&[usize], &[Fault]); 5] = [(&FORMS, FAULTS), (&FORMS, STACKING), (&[FORMS[1]], WITH_CLUSTERS), (&[NO_FORM], OTHER_SIZES), (&FORMS, MOVING)];

/// The faults of a kind, each with a form in which it must be noticed.
fn planted(kind: usize) -> Vec<(&'static Fault, usize)> {
    let mut out = vec![];
    for (concerned, faults) in TABLES {
        let here = concerned.iter().filter(|f| **f == NO_FORM || forms(kind).contains(f));
        for &form in here {
            out.extend(faults.iter().filter(|f| f.kinds.contains(&kind)).map(|f| (f, form)));
        }
    }
    out
}

/// Does the run notice the fault in those of these calls that have the form? What the port answers to the calls themselves is known; those that the fault changes are
/// asked anew.
fn noticed(f: &Fault, form: usize, calls: &[Call], theirs: &[Answer], plain: &[Answer], port: &mut Side) -> Option<usize> {
    let concerned: Vec<usize> = (0..calls.len()).filter(|k| calls[*k].form() == form).collect();
    let mut ours: Vec<Answer> = concerned.iter().map(|k| plain[*k].clone()).collect();
    let (mut asked, mut places) = (vec![], vec![]);
    for (at, k) in concerned.iter().enumerate() {
        let mut changed = calls[*k].clone();
        (f.ask)(&mut changed);
        if changed != calls[*k] {
            asked.push(changed);
            places.push(at);
        }
    }
    for (at, answer) in places.into_iter().zip(port.ask(&asked)) {
        ours[at] = answer;
    }
    concerned.into_iter().zip(ours).find_map(|(k, mut answer)| {
        (f.say)(&calls[k], &mut answer);
        (answer != theirs[k]).then_some(k)
    })
}

/// Plants each fault in each kind and form that it concerns, and says whether all were noticed.
pub fn run(kinds: &[usize], oracle: &[String], port: &[String], calls: usize, seed: u64) -> bool {
    let (mut oracle, mut port) = (Side::start(oracle), Side::start(port));
    let (mut count, mut missed) = (0, 0);
    for &kind in kinds {
        let mut left = planted(kind);
        count += left.len();
        let mut before = 0;
        let say = |f: &Fault, form: usize, what: String| println!("{:14} {}, {}: {what}", NAMES[kind], form_name(form), f.name);
        for job in plan(&[kind], calls, seed, 7) {
            if left.is_empty() {
                break;
            }
            let calls = job.calls();
            let (theirs, plain) = (oracle.ask(&calls), port.ask(&calls));
            left.retain(|(f, form)| match noticed(f, *form, &calls, &theirs, &plain, &mut port) {
                Some(k) => {
                    say(f, *form, format!("noticed after {} calls", before + k + 1));
                    false
                }
                None => true,
            });
            before += calls.len();
        }
        left.iter().for_each(|(f, form)| say(f, *form, format!("NOT NOTICED in {before} calls")));
        missed += left.len();
    }
    println!("{count} faults planted, {missed} not noticed");
    missed == 0
}
