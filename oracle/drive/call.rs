//! A call, an answer, and their frames (README.md has the bytes).

#[derive(Clone, PartialEq, Default)]
pub struct Call {
    pub kind: usize,
    pub direction: u32,
    pub s: u32,
    pub u: u32,
    pub limit: u32,
    pub attachments: u32,
    pub missing: u32,
    pub lookup_flag: u32,
    /// The bytes of a slot, rightly or not; of a move, its source's.
    pub size: u64,
    pub index: u64,
    pub neighbour: u64,
    pub line: Vec<u8>,
    /// Of a move, the target as lent.
    pub subtable: Vec<u8>,
}

pub const NAMES: [&str; 10] = ["start", "finish", "single", "pair", "cursive", "mark_base", "mark_ligature", "mark_mark", "to_clusters", "from_clusters"];
pub const START: usize = 0;
pub const FINISH: usize = 1;
pub const SINGLE: usize = 2;
pub const PAIR: usize = 3;
pub const CURSIVE: usize = 4;
pub const MARK_BASE: usize = 5;
pub const MARK_LIGATURE: usize = 6;
pub const MARK_MARK: usize = 7;
pub const TO_CLUSTERS: usize = 8;
pub const FROM_CLUSTERS: usize = 9;

pub fn is_applying(kind: usize) -> bool {
    (SINGLE..=MARK_MARK).contains(&kind)
}

/// Does the caller name another slot, or that it is missing?
pub fn has_neighbour(kind: usize) -> bool {
    matches!(kind, PAIR | CURSIVE | MARK_MARK)
}

pub fn is_move(kind: usize) -> bool {
    kind >= TO_CLUSTERS
}

/// The forms of a line, by the bytes of a slot: without a cluster, and with one.
pub const FORMS: [usize; 2] = [24, 28];
/// In the place of a form, where the size is neither.
pub const NO_FORM: usize = usize::MAX;

/// The forms that calls of a kind can have.
pub fn forms(kind: usize) -> &'static [usize] {
    match kind {
        TO_CLUSTERS => &FORMS[..1],
        FROM_CLUSTERS => &FORMS[1..],
        _ => &FORMS,
    }
}

pub fn form_name(form: usize) -> &'static str {
    match form {
        24 => "slots of 24",
        28 => "slots of 28",
        _ => "other sizes",
    }
}

/// The bytes of a request before its line.
const HEADER: usize = 64;

pub fn be(b: &[u8]) -> u64 {
    b.iter().fold(0, |n, x| n << 8 | u64::from(*x))
}

impl Call {
    pub fn form(&self) -> usize {
        FORMS.into_iter().find(|f| *f as u64 == self.size).unwrap_or(NO_FORM)
    }
    /// The bytes by which the line is taken apart: 24 also where the size is no form's.
    pub fn stride(&self) -> usize {
        match self.form() {
            NO_FORM => FORMS[0],
            form => form,
        }
    }
    pub fn slots(&self) -> usize {
        self.line.len() / self.stride()
    }
    pub fn slot(&mut self, i: usize) -> &mut [u8] {
        let n = self.stride();
        &mut self.line[n * i..n * (i + 1)]
    }
    pub fn each_slot(&mut self) -> std::slice::ChunksExactMut<'_, u8> {
        let n = self.stride();
        self.line.chunks_exact_mut(n)
    }
    /// What the call may write, as lent, and the bytes of a slot there.
    pub fn written(&self) -> (&[u8], usize) {
        match self.kind {
            TO_CLUSTERS => (&self.subtable, FORMS[1]),
            FROM_CLUSTERS => (&self.subtable, FORMS[0]),
            _ => (&self.line, self.stride()),
        }
    }
    pub fn frame(&self) -> Vec<u8> {
        let mut out = vec![self.kind as u8, 0, 0, 0];
        for v in [self.direction, self.s, self.u, self.limit, self.attachments, self.missing, self.lookup_flag] {
            out.extend(v.to_be_bytes());
        }
        for v in [self.size, self.index, self.neighbour] {
            out.extend(v.to_be_bytes());
        }
        out.extend((self.line.len() as u32).to_be_bytes());
        out.extend((self.subtable.len() as u32).to_be_bytes());
        out.extend(&self.line);
        out.extend(&self.subtable);
        out
    }
    pub fn parse(b: &[u8]) -> Option<Self> {
        if b.len() < HEADER || usize::from(b[0]) >= NAMES.len() {
            return None;
        }
        let n32 = |at: usize| be(&b[at..at + 4]) as u32;
        let (n, m) = (n32(56) as usize, n32(60) as usize);
        (b.len() == HEADER + n + m).then(|| Self {
            kind: b[0].into(),
            direction: n32(4),
            s: n32(8),
            u: n32(12),
            limit: n32(16),
            attachments: n32(20),
            missing: n32(24),
            lookup_flag: n32(28),
            size: be(&b[32..40]),
            index: be(&b[40..48]),
            neighbour: be(&b[48..56]),
            line: b[HEADER..HEADER + n].to_vec(),
            subtable: b[HEADER + n..].to_vec(),
        })
    }
    pub fn describe(&self) -> String {
        let mut t = format!("{} on {} bytes of line, in slots of {}", NAMES[self.kind], self.line.len(), self.size);
        if is_move(self.kind) {
            return t + &format!(", {} bytes of target", self.subtable.len());
        }
        if self.kind != START {
            t += &format!(", direction {}", self.direction);
        }
        if self.kind == FINISH {
            t += &format!(", limit {}, attachments {}", self.limit, self.attachments);
        }
        if is_applying(self.kind) {
            t += &format!(", s {}, u {}, index {}, {} bytes of subtable", self.s, self.u, self.index, self.subtable.len());
        }
        if has_neighbour(self.kind) {
            t += &format!(", neighbour {} {}", if self.missing == 0 { "at" } else { "missing, bound" }, self.neighbour);
        }
        if self.kind == CURSIVE {
            t += &format!(", lookup flag {}", self.lookup_flag);
        }
        t
    }
}

pub const DONE: u64 = 0;
pub const APPLIED: u64 = 1;
pub const DECLINED: u64 = 2;
pub const REFUSED: u64 = 3;

#[derive(Clone, PartialEq)]
pub struct Answer {
    pub status: u64,
    pub refusal: u64,
    pub attached: u64,
    pub hazards: u64,
    pub next: u64,
    /// kind (1 break, 2 concat), start, end
    pub hazard: [[u64; 3]; 2],
    /// 1 if a guard, or what is only to be read, was changed, 2 if the program died
    pub harm: u64,
    /// The line afterwards; of a move, the target.
    pub line: Vec<u8>,
}

impl Answer {
    pub fn parse(b: &[u8]) -> Self {
        let n = |k: usize| be(&b[8 * k..8 * k + 8]);
        Self {
            status: n(0),
            refusal: n(1),
            attached: n(2),
            hazards: n(3),
            next: n(4),
            hazard: [[n(5), n(6), n(7)], [n(8), n(9), n(10)]],
            harm: n(11),
            line: b[96..].to_vec(),
        }
    }
    pub fn died() -> Self {
        Self { status: 9, refusal: 0, attached: 0, hazards: 0, next: 0, hazard: [[0; 3]; 2], harm: 2, line: Vec::new() }
    }
    /// The outcome in words, for the tally: the case, its number or its hazards, and whether it attached.
    pub fn outcome(&self) -> String {
        let case = match self.status {
            DONE => "done".into(),
            APPLIED => "applied".into(),
            DECLINED => "declined".into(),
            REFUSED => format!("refused {}", self.refusal),
            _ => "died".to_string(),
        };
        let kinds = self.hazard.iter().map(|h| match h[0] {
            1 => " break",
            2 => " concat",
            _ => "",
        });
        case + &kinds.collect::<String>() + if self.attached == 1 { " attached" } else { "" }
    }
    /// What differs first, in words, in answers that have slots of so many bytes.
    pub fn difference(&self, other: &Self, slot: usize) -> Option<String> {
        if self == other {
            return None;
        }
        let words = ["status", "refusal", "attached", "hazards", "next", "harm to what was lent"];
        let mine = [self.status, self.refusal, self.attached, self.hazards, self.next, self.harm];
        let theirs = [other.status, other.refusal, other.attached, other.hazards, other.next, other.harm];
        for k in 0..6 {
            if mine[k] != theirs[k] {
                return Some(format!("{}: {} and {}", words[k], mine[k], theirs[k]));
            }
        }
        if self.hazard != other.hazard {
            return Some(format!("hazards (kind, start, end): {:?} and {:?}", self.hazard, other.hazard));
        }
        let at = self.line.iter().zip(&other.line).position(|(a, b)| a != b)?;
        Some(format!("slot {} byte {}: {} and {}", at / slot, at % slot, self.line[at], other.line[at]))
    }
}

pub fn hex(b: &[u8]) -> String {
    b.iter().map(|x| format!("{x:02x}")).collect()
}

pub fn unhex(text: &str) -> Option<Vec<u8>> {
    let t: Vec<u8> = text.bytes().filter(|b| !b.is_ascii_whitespace()).collect();
    (t.len() % 2 == 0).then_some(())?;
    t.chunks(2).map(|p| u8::from_str_radix(std::str::from_utf8(p).ok()?, 16).ok()).collect()
}
