//! Subtables of every kind: good, odd and damaged.
use crate::call::*;
use crate::groups::laid;
use crate::lines::glyph;
use crate::rng::Rng;

pub fn words(xs: &[u16]) -> Vec<u8> {
    xs.iter().flat_map(|x| x.to_be_bytes()).collect()
}

fn put(b: &mut [u8], at: usize, x: usize) {
    b[at..at + 2].copy_from_slice(&(x as u16).to_be_bytes());
}

/// The tables of a parent, appended in any order, with their offsets written into the parent at the places given. Where something is to be wrong,
/// an offset leads elsewhere: nowhere, into the parent, into another table, past the end.
fn assemble(r: &mut Rng, parent: Vec<u8>, mut children: Vec<(usize, Vec<u8>)>, odds: usize) -> Vec<u8> {
    let head = parent.len();
    let mut out = parent;
    for k in (1..children.len()).rev() {
        children.swap(k, r.below(k + 1));
    }
    let mut places = vec![];
    for (at, child) in &children {
        if r.once_in(16) {
            out.extend(vec![0; r.below(4)]);
        }
        places.push((*at, out.len()));
        out.extend(child);
    }
    let len = out.len();
    for k in 0..places.len() {
        let (at, mut place) = places[k];
        if r.once_in(odds * 2) {
            place = match r.below(6) {
                0 => 0,
                1 => r.below(head),
                2 => places[r.below(places.len())].1,
                3 => r.pick(&[len, len + 1, len - 1, 65535]),
                4 => r.below(len),
                _ => place + 1,
            };
        }
        put(&mut out, at, place);
    }
    out
}

fn coverage(r: &mut Rng, odds: usize) -> Vec<u8> {
    let mut glyphs: Vec<u16> = (0..10).filter(|_| !(r.left_out)(r.next())).collect();
    glyphs.extend([255, 256, 65534, 65535].into_iter().filter(|_| r.once_in(4)));
    if r.once_in(odds) && glyphs.len() > 1 {
        let k = r.below(glyphs.len() - 1);
        if r.once_in(2) {
            glyphs.swap(k, k + 1);
        } else {
            glyphs[k + 1] = glyphs[k];
        }
    }
    if r.once_in(2) {
        let format = if r.once_in(odds) { r.pick(&[0, 3, 4, 257]) } else { 1 };
        let n = glyphs.len() as u16 + u16::from(r.once_in(odds));
        return [words(&[format, n]), words(&glyphs)].concat();
    }
    ranges(r, &glyphs, odds, None)
}

/// Runs of glyphs as range records. A coverage's third number is the index of the first; a class list's is a class.
fn ranges(r: &mut Rng, glyphs: &[u16], odds: usize, classes: Option<usize>) -> Vec<u8> {
    let mut records: Vec<[u16; 3]> = vec![];
    for (k, g) in glyphs.iter().enumerate() {
        match records.last_mut() {
            Some(last) if last[1].wrapping_add(1) == *g && !r.once_in(3) => last[1] = *g,
            _ => records.push([*g, *g, classes.map_or(k, |c| r.below(c + 1)) as u16]),
        }
    }
    if classes.is_none() && r.once_in(8) && !records.is_empty() {
        let k = r.below(records.len());
        records[k][2] = r.pick(&[0, 1, 65535, 65534, 3]);
    }
    if r.once_in(odds) && !records.is_empty() {
        let k = r.below(records.len());
        let [a, b, _] = records[k];
        (records[k][0], records[k][1]) = r.pick(&[(b.wrapping_add(1), a), (a, b.wrapping_add(1)), (0, 65535), (b, a)]);
    }
    let format = if r.once_in(odds) { r.pick(&[0, 3, 4, 512]) } else { 2 };
    let n = records.len() as u16 + u16::from(r.once_in(odds));
    [words(&[format, n]), records.iter().flat_map(|x| words(x)).collect()].concat()
}

fn class_list(r: &mut Rng, classes: usize, odds: usize) -> Vec<u8> {
    if r.once_in(2) {
        let glyphs: Vec<u16> = (0..10).filter(|_| !r.once_in(5)).collect();
        return ranges(r, &glyphs, odds, Some(classes));
    }
    let n = r.below(10);
    let format = if r.once_in(odds) { r.pick(&[0, 3, 4, 257]) } else { 1 };
    let list: Vec<u16> = (0..n).map(|_| r.below(classes + 1) as u16).collect();
    let start = if r.once_in(12) { r.pick(&[65530, 65535]) } else { r.below(4) as u16 };
    [words(&[format, start, n as u16 + u16::from(r.once_in(odds))]), words(&list)].concat()
}

fn value(r: &mut Rng) -> u16 {
    let drawn = match r.below(6) {
        0 => 0,
        1 => r.pick(&[1, -1, i16::MAX, i16::MIN, i16::MIN + 1]),
        _ => r.below(401) as i16 - 200,
    };
    (r.value)(drawn) as u16
}

fn value_format(r: &mut Rng, odds: usize) -> u16 {
    if r.once_in(odds) {
        return r.pick(&[0x100, 0x104, 0x8004, 0xFFFF]);
    }
    match r.below(6) {
        0 | 1 => 4,
        2 => 0,
        3 | 4 => r.below(16) as u16,
        _ => r.below(256) as u16,
    }
}

fn record(r: &mut Rng, format: u16) -> Vec<u8> {
    (0..(format & 255).count_ones()).flat_map(|_| value(r).to_be_bytes()).collect()
}

fn anchor(r: &mut Rng, odds: usize) -> Vec<u8> {
    let format = if r.once_in(odds) { r.pick(&[0, 4, 256]) } else { 1 + r.below(3) as u16 };
    let mut t = words(&[format, value(r), value(r)]);
    t.extend(match format {
        2 => vec![0; 2],
        3 => vec![0; 4],
        _ => vec![],
    });
    t
}

fn single(r: &mut Rng, odds: usize) -> Vec<u8> {
    let f = value_format(r, odds);
    let format = if r.once_in(odds) { r.pick(&[0, 3, 4, 258]) } else { 1 + r.below(2) as u16 };
    let mut t = words(&[format, 0, f]);
    if format == 2 {
        let n = r.below(12);
        t.extend(words(&[n as u16 + u16::from(r.once_in(odds))]));
        for _ in 0..n {
            t.extend(record(r, f));
        }
    } else {
        t.extend(record(r, f));
    }
    let cover = coverage(r, odds);
    assemble(r, t, vec![(2, cover)], odds)
}

fn pair_set(r: &mut Rng, f1: u16, f2: u16, odds: usize) -> Vec<u8> {
    let mut seconds: Vec<u16> = (0..10).filter(|_| !r.once_in(3)).collect();
    if r.once_in(4) {
        seconds.push(glyph(r)); // out of order, or twice: not checked
    }
    let n = seconds.len() as u16 + if r.once_in(odds) { r.pick(&[1, 2, 100]) } else { 0 };
    let mut t = words(&[n]);
    for g in seconds {
        t.extend(g.to_be_bytes());
        t.extend(record(r, f1));
        t.extend(record(r, f2));
    }
    t
}

fn pair(r: &mut Rng, odds: usize) -> Vec<u8> {
    let (f1, f2) = (value_format(r, odds), if r.once_in(2) { 0 } else { value_format(r, odds) });
    let cover = coverage(r, odds);
    let format = if r.once_in(odds) { r.pick(&[0, 3, 4, 257]) } else { 1 + r.below(2) as u16 };
    if format == 2 {
        let (n1, n2) = (1 + r.below(3), 1 + r.below(3));
        let mut t = words(&[2, 0, f1, f2, 0, 0, n1 as u16 + u16::from(r.once_in(odds)), n2 as u16 + u16::from(r.once_in(odds))]);
        for _ in 0..n1 * n2 {
            t.extend(record(r, f1));
            t.extend(record(r, f2));
        }
        let lists = [class_list(r, n1, odds), class_list(r, n2, odds)];
        let [c1, c2] = lists;
        return assemble(r, t, vec![(2, cover), (8, c1), (10, c2)], odds);
    }
    let n = r.below(11);
    let mut t = words(&[format, 0, f1, f2, n as u16 + u16::from(r.once_in(odds))]);
    t.extend(vec![0; 2 * n]);
    let mut children = vec![(2, cover)];
    for k in 0..n {
        if !r.once_in(8) {
            children.push((10 + 2 * k, pair_set(r, f1, f2, odds)));
        }
    }
    assemble(r, t, children, odds)
}

fn cursive(r: &mut Rng, odds: usize) -> Vec<u8> {
    let n = 3 + r.below(10);
    let format = if r.once_in(odds) { r.pick(&[0, 2, 257]) } else { 1 };
    let mut t = words(&[format, 0, n as u16 + u16::from(r.once_in(odds))]);
    t.extend(vec![0; 4 * n]);
    let mut children = vec![(2, coverage(r, odds))];
    for k in 0..2 * n {
        if !r.once_in(10) {
            children.push((6 + 2 * k, anchor(r, odds)));
        }
    }
    assemble(r, t, children, odds)
}

fn mark_array(r: &mut Rng, classes: usize, odds: usize) -> Vec<u8> {
    let n = 3 + r.below(10);
    let mut t = words(&[n as u16 + u16::from(r.once_in(odds))]);
    let mut children = vec![];
    for k in 0..n {
        let class = if r.once_in(odds) { classes } else { r.below(classes) };
        t.extend(words(&[class as u16, 0]));
        if !r.once_in(12) {
            children.push((4 + 4 * k, anchor(r, odds)));
        }
    }
    assemble(r, t, children, odds)
}

/// A base array, or the component table of a ligature: rows of anchors, one for each class.
fn anchor_rows(r: &mut Rng, rows: usize, classes: usize, odds: usize) -> Vec<u8> {
    let mut t = words(&[rows as u16 + u16::from(r.once_in(odds))]);
    t.extend(vec![0; 2 * rows * classes]);
    let mut children = vec![];
    for k in 0..rows * classes {
        if !r.once_in(10) {
            children.push((2 + 2 * k, anchor(r, odds)));
        }
    }
    assemble(r, t, children, odds)
}

fn ligature_array(r: &mut Rng, classes: usize, odds: usize) -> Vec<u8> {
    let n = 3 + r.below(10);
    let mut t = words(&[n as u16 + u16::from(r.once_in(odds))]);
    t.extend(vec![0; 2 * n]);
    let mut children = vec![];
    for k in 0..n {
        if !r.once_in(12) {
            let rows = r.below(4);
            children.push((2 + 2 * k, anchor_rows(r, rows, classes, odds)));
        }
    }
    assemble(r, t, children, odds)
}

fn marks(r: &mut Rng, ligature: bool, odds: usize) -> Vec<u8> {
    let classes = 1 + r.below(3);
    let count = if r.once_in(odds) { r.pick(&[0, classes + 1, 65535]) } else { classes };
    let format = if r.once_in(odds) { r.pick(&[0, 2, 257]) } else { 1 };
    let t = words(&[format, 0, 0, count as u16, 0, 0]);
    let rows = 3 + r.below(10);
    let bases = if ligature { ligature_array(r, classes, odds) } else { anchor_rows(r, rows, classes, odds) };
    let children = vec![(2, coverage(r, odds)), (4, coverage(r, odds)), (8, mark_array(r, classes, odds)), (10, bases)];
    let children = children.into_iter().filter(|_| !r.once_in(40)).collect();
    assemble(r, t, children, odds)
}

/// Rows of anchors for earlier marks, with one anchor among their own offsets: whole, a byte short, a row short, or a byte longer.
fn tight_rows(r: &mut Rng, classes: usize) -> Vec<u8> {
    let rows = 4 + r.below(8);
    let mut t = words(&[rows as u16, 4, 1, value(r), value(r)]);
    t.extend(words(&vec![4; rows * classes - 4]));
    match r.below(4) {
        0 => drop(t.pop()),
        1 => t[1] += 1,
        2 => t.push(0),
        _ => {}
    }
    t
}

/// As for bases; or with an array at the end that just fits or is cut: that of the earlier marks, or the mark array.
fn mark_marks(r: &mut Rng, odds: usize) -> Vec<u8> {
    let which = r.below(8);
    if which > 2 {
        return marks(r, false, odds);
    }
    let classes = 1 + r.below(2);
    let mut array = mark_array(r, classes, odds);
    let rows = tight_rows(r, classes);
    let [inside, last] = if which == 0 {
        array.truncate(2 + r.below(array.len() - 2));
        [(10, rows), (8, array)]
    } else {
        [(8, array), (10, rows)]
    };
    let children = vec![(2, coverage(r, odds)), (4, coverage(r, odds)), inside];
    laid(assemble(r, words(&[1, 0, 0, classes as u16, 0, 0]), children, odds), &[last])
}

/// A subtable of the kind. `odds` is how seldom a part of it is wrong.
pub fn subtable(r: &mut Rng, kind: usize, odds: usize) -> Vec<u8> {
    match kind {
        SINGLE => single(r, odds),
        PAIR => pair(r, odds),
        CURSIVE => cursive(r, odds),
        MARK_BASE => marks(r, false, odds),
        MARK_LIGATURE => marks(r, true, odds),
        MARK_MARK => mark_marks(r, odds),
        _ => vec![],
    }
}

/// A subtable in which the glyphs 0 to 7 have all that they can have.
pub fn whole(kind: usize) -> Vec<u8> {
    let glyphs = words(&[2, 1, 0, 7, 0]);
    let anchor = |k: usize| words(&[1, 100 + 10 * k as u16, (37 - 9 * k as i32) as u16]);
    let anchors = |from: usize, step: usize, place: usize| (0..8).map(|k| (from + step * k, anchor(k + place))).collect::<Vec<_>>();
    let r = &mut Rng::new(0);
    let never = 1 << 30;
    match kind {
        SINGLE => assemble(r, words(&[1, 0, 15, 10, 65516, 30, 40]), vec![(2, glyphs)], never),
        PAIR => {
            let classes = words(&[2, 1, 0, 7, 1]);
            let records = words(&[0, 0, 0, 0, 0, 0, 65486, 20]);
            assemble(r, [words(&[2, 0, 4, 1, 0, 0, 2, 2]), records].concat(), vec![(2, glyphs), (8, classes.clone()), (10, classes)], never)
        }
        CURSIVE => {
            let mut children = [anchors(6, 4, 0), anchors(8, 4, 3)].concat();
            children.push((2, glyphs));
            assemble(r, [words(&[1, 0, 8]), vec![0; 32]].concat(), children, never)
        }
        MARK_BASE | MARK_LIGATURE | MARK_MARK => {
            let marks = assemble(r, [words(&[8]), vec![0; 32]].concat(), anchors(4, 4, 0), never);
            let rows = assemble(r, [words(&[8]), vec![0; 16]].concat(), anchors(2, 2, 5), never);
            let ligatures = || (0..8).map(|k| (2 + 2 * k, rows.clone())).collect();
            let bases = if kind == MARK_LIGATURE { assemble(r, [words(&[8]), vec![0; 16]].concat(), ligatures(), never) } else { rows.clone() };
            assemble(r, words(&[1, 0, 0, 1, 0, 0]), vec![(2, glyphs.clone()), (4, glyphs), (8, marks), (10, bases)], never)
        }
        _ => vec![],
    }
}

/// Damage to the whole: cut, bytes changed, bytes added.
pub fn damage(r: &mut Rng, t: &mut Vec<u8>, odds: usize) {
    if r.once_in(odds) {
        t.truncate(r.below(t.len() + 1));
    }
    if r.once_in(odds) && !t.is_empty() {
        for _ in 0..1 + r.below(3) {
            let at = r.below(t.len());
            t[at] = match r.below(4) {
                0 => t[at] ^ 1 << r.below(8),
                1 => t[at].wrapping_add(1),
                2 => 0,
                _ => r.next() as u8,
            };
        }
    }
    if r.once_in(2 * odds) {
        t.extend((0..r.below(6)).map(|_| 0));
    }
}
