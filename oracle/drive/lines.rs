//! Lines and arguments: good, at the edges, damaged.
use crate::call::*;
use crate::rng::Rng;

/// One slot, by its fields.
#[derive(Clone, Copy, Default)]
pub struct Slot {
    pub glyph: u16,
    pub ligature_id: u8,
    pub component: u8,
    pub flags: u8,
    pub kind: u8,
    pub chain: i16,
    /// x advance, y advance, x offset, y offset
    pub measures: [i32; 4],
}

/// Sizes of slots that there aren't. Some are a form's once they are cut to 8 or 32 bits.
pub const WRONG_SIZES: [u64; 17] = [0, 1, 2, 12, 23, 25, 26, 27, 29, 32, 48, 56, 256 + 24, 256 + 28, (1 << 32) + 24, (1 << 32) + 28, u64::MAX];

/// Adds a slot in so many bytes, with its number for a cluster: cut where they are less than a slot with a cluster has, filled up with zeros where they are more.
pub fn push(line: &mut Vec<u8>, size: usize, s: Slot) {
    let (start, number) = (line.len(), line.len() / size);
    line.extend(s.glyph.to_be_bytes());
    line.extend([s.ligature_id, s.component, s.flags, s.kind]);
    line.extend(s.chain.to_be_bytes());
    for m in s.measures {
        line.extend(m.to_be_bytes());
    }
    line.extend((number as u32).to_be_bytes());
    line.resize(start + size, 0);
}

/// Gives each slot a random cluster, where there are clusters and the call doesn't look at them.
pub fn scatter_clusters(r: &mut Rng, call: &mut Call) {
    if is_move(call.kind) || call.form() != FORMS[1] {
        return;
    }
    for slot in call.each_slot() {
        let cluster = match r.below(8) {
            0 => r.below(16) as u32,
            1 => r.pick(&[0, 255, 256, 1 << 31, u32::MAX]),
            _ => r.next() as u32,
        };
        slot[24..].copy_from_slice(&cluster.to_be_bytes());
    }
}

/// A glyph of the small alphabet that lines and tables share.
pub fn glyph(r: &mut Rng) -> u16 {
    if r.once_in(40) {
        r.pick(&[65535, 65534, 256, 255])
    } else {
        r.below(10) as u16
    }
}

fn measure(r: &mut Rng) -> i32 {
    match r.below(10) {
        0..=5 => r.below(4001) as i32 - 2000,
        6 => 0,
        7 => r.pick(&[i32::MAX, i32::MIN, i32::MAX - 1, i32::MIN + 1, 1 << 30, -(1 << 30)]),
        8 => {
            let near = r.below(3000) as i32;
            if r.once_in(2) {
                i32::MAX - near
            } else {
                i32::MIN + near
            }
        }
        _ => r.next() as i32,
    }
}

fn chain(r: &mut Rng, i: usize, n: usize) -> i16 {
    let (i, n) = (i as i64, n as i64);
    let c = match r.below(12) {
        0..=3 => 0,
        4..=7 => r.below(7) as i64 - 3,
        8 | 9 => r.below(n as usize) as i64 - i,
        10 => r.pick(&[-i - 1, n - i, n - i - 1, -i]),
        _ => r.pick(&[-32768, 32767, -1024, 1024, 255, 256, -256, -255]),
    };
    c as i16
}

fn count(r: &mut Rng) -> usize {
    match r.below(400) {
        0..=11 => 0,
        12..=279 => 1 + r.below(6),
        280..=379 => 1 + r.below(40),
        380..=397 => 41 + r.below(160),
        _ => r.pick(&[1023, 1024, 1024, 1025]),
    }
}

/// Chains that random ones seldom make: runs to the slot before or after, rings, marks on one base.
fn pattern(r: &mut Rng, i: usize, n: usize, which: usize, s: &mut Slot) {
    (s.kind, s.chain) = match which {
        0 => (2, if i == 0 { 0 } else { -1 }),
        1 => (2, if i + 1 == n { 0 } else { 1 }),
        2 => (2, if i + 1 == n { -(i as i32) as i16 } else { 1 }),
        3 => (1, -(i as i32) as i16),
        4 => (1, (n - 1 - i) as i16),
        _ => (r.pick(&[1, 2, 2, 2, 3]), if i == 0 { 0 } else { -1 }),
    };
}

/// A line of n slots without a fault.
pub fn good_line(r: &mut Rng, size: usize, n: usize) -> Vec<u8> {
    let which = if r.once_in(4) { r.below(6) } else { 9 };
    let mut out = Vec::with_capacity(size * n + size);
    for i in 0..n {
        let mut s = Slot {
            glyph: glyph(r),
            ligature_id: if r.once_in(2) { r.below(2) as u8 } else { r.below(8) as u8 },
            component: if r.once_in(2) { r.below(4) as u8 } else { r.below(16) as u8 },
            flags: r.pick(&[1, 1, 1, 2, 2, 3, 5, 0, 4, 6, 7]),
            kind: match r.below(10) {
                0..=3 => 1,
                4..=7 => 2,
                8 => r.pick(&[0, 3]),
                _ => r.next() as u8,
            },
            chain: chain(r, i, n),
            measures: [measure(r), measure(r), measure(r), measure(r)],
        };
        if which < 9 && !r.once_in(12) {
            pattern(r, i, n, which, &mut s);
        }
        push(&mut out, size, s);
    }
    out
}

/// Is one of the slot's numbers out of range?
pub fn is_bad(slot: &[u8]) -> bool {
    slot[2] > 7 || slot[3] > 15 || slot[4] > 7
}

fn line(r: &mut Rng, size: usize, odds: usize) -> Vec<u8> {
    let n = count(r);
    let mut out = good_line(r, size, n);
    spoil(r, &mut out, size, odds);
    out
}

/// Seldom makes a slot bad, or the length wrong.
pub fn spoil(r: &mut Rng, out: &mut Vec<u8>, size: usize, odds: usize) {
    if !out.is_empty() && r.once_in(odds) {
        let at = size * r.below(out.len() / size);
        match r.below(3) {
            0 => out[at + 2] = r.pick(&[8, 16, 255]),
            1 => out[at + 3] = r.pick(&[16, 17, 255]),
            _ => out[at + 4] = r.pick(&[8, 16, 128, 255]),
        }
    }
    if r.once_in(odds) {
        let cut = 1 + r.below(size - 1);
        if r.once_in(2) {
            out.resize(out.len() + cut, 0);
        } else {
            out.truncate(out.len().saturating_sub(cut));
        }
    }
}

pub fn scale(r: &mut Rng, low: u32, high: u32, odds: usize) -> u32 {
    if r.once_in(odds) {
        r.pick(&[low - 1, high + 1, u32::MAX, 0])
    } else {
        match r.below(6) {
            0 => low,
            1 => high,
            2 | 3 => r.pick(&[1000, 1024, 2048]),
            _ => low + r.below((high - low + 1) as usize) as u32,
        }
    }
}

fn neighbour(r: &mut Rng, call: &mut Call, odds: usize) {
    let (n, i) = (call.slots() as u64, call.index);
    let bad = r.once_in(odds);
    if r.once_in(6) {
        call.missing = r.pick(&[1, 1, 2, 256, u32::MAX]);
        call.neighbour = if bad { r.pick(&[n + 1, n + 2, u64::MAX, 1 << 32]) } else { r.below(n as usize + 1) as u64 };
        return;
    }
    let near = r.below(8);
    call.neighbour = if bad {
        r.pick(&[i, n, n + 1, 0, u64::MAX, (1 << 32) + i + 1, 1 << 32])
    } else if call.kind == PAIR {
        i.wrapping_add(1) + if near == 0 { r.below((n.saturating_sub(i) as usize).saturating_sub(1)) as u64 } else { 0 }
    } else if near == 0 {
        r.below(i as usize) as u64
    } else {
        i.wrapping_sub(1)
    };
}

/// Mostly makes a mark of the earlier slot that is named, with an id and a component that match the later slot's or nearly do.
fn stack(r: &mut Rng, call: &mut Call) {
    let (earlier, own) = (call.neighbour as usize, call.index as usize);
    if call.missing != 0 || call.neighbour >= call.index || own >= call.slots() || [earlier, own].iter().any(|i| is_bad(call.slot(*i))) {
        return;
    }
    if !r.once_in(12) {
        call.slot(earlier)[4] |= 2;
    }
    let (id, component) = (1 + r.below(7) as u8, 1 + r.below(15) as u8);
    let other = (id + 1 + r.below(6) as u8) % 8;
    let [low, high] = match r.below(16) {
        0 | 1 => [(0, component), (0, r.below(16) as u8)],
        2 => [(id, component), (id, component)],
        3 => [(id, component - 1), (id, component - 1)],
        4 => [(id, component), (id, component - 1)],
        5 => [(id, component - 1), (id, component)],
        6 => [(id, component), (id, component ^ 8)],
        7 => [(id, 0), (other, component)],
        8 => [(other, component), (id, 0)],
        9 => [(id, component), (0, 0)],
        10 => [(0, 0), (id, component)],
        11 => [(id, component), (other, component)],
        12 => [(id, 0), (other, 0)],
        _ => return,
    };
    for (i, (id, component)) in [(earlier, low), (own, high)] {
        call.slot(i)[2..4].copy_from_slice(&[id, component]);
    }
}

/// A call of the kind on a line of either form. Where the size is wrong, it may be the other form's.
fn on_line(r: &mut Rng, kind: usize, odds: usize) -> Call {
    let form = r.pick(forms(kind));
    let mut call = Call { kind, size: form as u64, line: line(r, form, odds), ..Call::default() };
    scatter_clusters(r, &mut call);
    if !is_move(kind) && r.once_in(2 * odds) {
        call.size = if r.once_in(4) { r.pick(&FORMS) as u64 } else { r.pick(&WRONG_SIZES) };
    }
    call
}

/// Everything but the subtable, of any kind. `odds` is how seldom a thing is wrong.
pub fn arguments(r: &mut Rng, kind: usize, odds: usize) -> Call {
    let mut call = on_line(r, kind, odds);
    let n = call.slots();
    call.direction = if r.once_in(odds) { r.pick(&[4, 5, 255, 256, u32::MAX]) } else { r.below(4) as u32 };
    call.s = scale(r, 1, 32768, odds);
    call.u = scale(r, 16, 16384, odds);
    call.limit = if r.once_in(odds) {
        r.pick(&[65, 66, 255, u32::MAX])
    } else if r.once_in(2) {
        64
    } else {
        r.below(65) as u32
    };
    call.attachments = r.pick(&[1, 1, 1, 1, 1, 2, 256, u32::MAX, 0]);
    call.lookup_flag = r.pick(&[0, 1, 1, 0, 2, 3, 0x100, 0x101, 0xFFFE, 0xFFFF, 0x1_0000, u32::MAX]);
    call.index = if n == 0 || r.once_in(odds) {
        let far = (1 << 32) + r.below(n) as u64;
        r.pick(&[n as u64, n as u64 + 1, u64::MAX, 1 << 32, far])
    } else {
        match kind {
            PAIR => r.below(n.max(2) - 1) as u64,
            SINGLE => r.below(n) as u64,
            _ => (1 + r.below(n.max(2) - 1)).min(n - 1) as u64,
        }
    };
    if has_neighbour(kind) {
        neighbour(r, &mut call, odds);
    }
    if kind == MARK_MARK {
        stack(r, &mut call);
    }
    call
}
