//! What a run must leave, by single calls that the Rust answers. Which calls are made, and what becomes of their
//! answers, is decided here, by rules that have names, so that a slip in each can be planted.
use super::*;
use crate::sides::Side;

/// What decides a run, but for its refusals.
#[derive(Clone, Copy)]
pub struct Rules {
    /// Is the slot tried at all?
    pub tried: fn(&Run, usize) -> bool,
    /// The number of the subtable that is tried first, second and so on, of so many.
    pub order: fn(nth: usize, count: usize) -> usize,
    /// The bytes that a subtable sees.
    pub part: fn(&Run, usize) -> Vec<u8>,
    /// The slot above this one that is a pair's second.
    pub second: fn(&Run, usize) -> Option<usize>,
    /// The slot below this one that is the earlier one of a cursive attachment or of marks.
    pub earlier: fn(&Run, usize) -> Option<usize>,
    /// The bound of a missing second, and of a missing earlier one.
    pub bounds: fn(&Run, usize) -> [usize; 2],
    /// How many hazards of an answer are stored.
    pub stored: fn(&Answer) -> usize,
    /// Does the run stop?
    pub stops: fn(&Answer) -> bool,
    /// Are no more subtables tried at this slot?
    pub ends_turn: fn(&Answer) -> bool,
    /// Where an applied call says to go on, from this slot.
    pub next: fn(usize, &Answer) -> usize,
    /// Whether something was attached, before the call and after it.
    pub attached: fn(u64, &Answer) -> u64,
    /// How many hazards a stopped run has: of all stored, and of those stored at slots before.
    pub stopped: fn(all: usize, before: usize) -> usize,
}

fn above(run: &Run, index: usize) -> Option<usize> {
    (index + 1..run.slots()).find(|i| run.is_seen(*i))
}

fn below(run: &Run, index: usize) -> Option<usize> {
    (0..index).rev().find(|i| run.is_seen(*i))
}

pub const RIGHT: Rules = Rules {
    tried: |_, _| true,
    order: |nth, _| nth,
    part: |run, number| run.part(number).to_vec(),
    second: above,
    earlier: below,
    bounds: |run, _| [run.slots(), 0],
    stored: |a| a.hazards as usize,
    stops: |a| a.status == REFUSED,
    ends_turn: |a| a.status == APPLIED,
    next: |_, a| a.next as usize,
    attached: |before, a| before | a.attached,
    stopped: |all, _| all,
};

/// What happened in a run, for the tally.
#[derive(Clone, Default)]
pub struct Story {
    pub calls: usize,
    pub applied: usize,
    /// Applied by another subtable than the first.
    pub later: usize,
    /// Applied, and went on behind the next slot.
    pub jumps: usize,
    /// Declined with a hazard.
    pub warned: usize,
    /// Stopped with a hazard of the slot at which it stopped.
    pub late_warning: bool,
}

/// A run on its way.
pub struct Walk<'a> {
    run: &'a Run,
    rules: Rules,
    kind: usize,
    pub line: Vec<u8>,
    index: usize,
    /// So many subtables were tried at this slot.
    tries: usize,
    /// Where an applied call said to go on.
    next: Option<usize>,
    list: Vec<[u64; 3]>,
    /// How many hazards there were when this slot's turn began.
    before: usize,
    attached: u64,
    refusal: u64,
    pub story: Story,
}

impl<'a> Walk<'a> {
    /// Of a run that is not refused before it begins.
    pub fn new(run: &'a Run, rules: Rules) -> Self {
        let kind = kind_of(run.lookup_type).expect("one of the six types");
        let mut walk = Self {
            run,
            rules,
            kind,
            line: run.line.clone(),
            index: 0,
            tries: 0,
            next: None,
            list: vec![],
            before: 0,
            attached: 0,
            refusal: 0,
            story: Story::default(),
        };
        walk.pass_untried();
        walk
    }
    fn pass_untried(&mut self) {
        while self.index < self.run.slots() && !(self.rules.tried)(self.run, self.index) {
            self.index += 1;
        }
    }
    pub fn run(&self) -> &'a Run {
        self.run
    }
    pub fn is_over(&self) -> bool {
        self.refusal != 0 || self.index >= self.run.slots()
    }
    /// Whether the neighbour of a slot is missing, and the neighbour or the bound.
    pub fn neighbour(&self, index: usize) -> (usize, usize) {
        let [no_second, no_earlier] = (self.rules.bounds)(self.run, index);
        let (found, bound) = match self.kind {
            PAIR => ((self.rules.second)(self.run, index), no_second),
            CURSIVE | MARK_MARK => ((self.rules.earlier)(self.run, index), no_earlier),
            _ => (None, 0),
        };
        (found.is_none().into(), found.unwrap_or(bound))
    }
    /// The number of the subtable at hand.
    fn number(&self) -> usize {
        (self.rules.order)(self.tries, self.run.lens.len())
    }
    /// The call that is due: the number of its subtable, its index, whether the neighbour is missing, the neighbour.
    pub fn due(&self) -> [usize; 4] {
        let (missing, neighbour) = self.neighbour(self.index);
        [self.number(), self.index, missing, neighbour]
    }
    fn call(&self) -> Call {
        let [number, index, missing, neighbour] = self.due();
        let (index, missing, neighbour) = (index as u64, missing as u32, neighbour as u64);
        let (line, subtable) = (self.line.clone(), (self.rules.part)(self.run, number));
        Call { index, missing, neighbour, line, subtable, ..self.run.arguments(self.kind) }
    }
    /// Goes on by the answer to it; the line is set apart.
    pub fn take(&mut self, a: &Answer) {
        if a.harm != 0 {
            crate::fail("a side died of a single call");
        }
        self.tell(a);
        if (self.rules.stops)(a) {
            self.refusal = a.refusal;
            return;
        }
        self.list.extend(&a.hazard[..(self.rules.stored)(a)]);
        self.attached = (self.rules.attached)(self.attached, a);
        if a.status == APPLIED {
            self.next = Some((self.rules.next)(self.index, a));
        }
        self.tries += 1;
        if (self.rules.ends_turn)(a) || self.tries == self.run.lens.len() {
            self.turn();
        }
    }
    /// Ends the turn of this slot.
    fn turn(&mut self) {
        self.index = self.next.unwrap_or(self.index + 1);
        (self.tries, self.next, self.before) = (0, None, self.list.len());
        self.pass_untried();
    }
    fn tell(&mut self, a: &Answer) {
        let s = &mut self.story;
        s.calls += 1;
        match a.status {
            APPLIED => {
                s.applied += 1;
                s.later += usize::from(self.tries > 0);
                s.jumps += usize::from(a.next > self.index as u64 + 1);
            }
            DECLINED => s.warned += usize::from(a.hazards > 0),
            _ => s.late_warning = self.list.len() > self.before,
        }
    }
    /// What the run leaves.
    pub fn ran(&self) -> Ran {
        let is_stopped = self.refusal != 0;
        let stored = self.list.len();
        let count = if is_stopped { (self.rules.stopped)(stored, self.before) } else { stored };
        let (attached, index) = if is_stopped { (0, self.index as u64) } else { (self.attached, 0) };
        let mut list = lent_list(self.run.places);
        let places = list.chunks_mut(PLACE);
        places.zip(&self.list).for_each(|(place, hazard)| put_hazard(place, *hazard));
        Ran { refusal: self.refusal, attached, index, count: count as u64, harm: 0, line: self.line.clone(), list }
    }
}

/// Takes every walk to its end by single calls, of each walk one at a time.
pub fn by_calls(walks: &mut [Walk], side: &mut Side) {
    loop {
        let mut due: Vec<&mut Walk> = walks.iter_mut().filter(|w| !w.is_over()).collect();
        if due.is_empty() {
            return;
        }
        let calls: Vec<Call> = due.iter().map(|w| w.call()).collect();
        for (walk, answer) in due.iter_mut().zip(side.ask(&calls)) {
            walk.take(&answer);
            walk.line = answer.line;
        }
    }
}

/// What single calls say of a run before it begins.
#[derive(Clone, Default)]
pub struct Probed {
    /// 1 to 4, or 0.
    pub line: u64,
    /// Of each subtable, where there are any to be asked: is it bad?
    pub bad: Vec<bool>,
}

/// A call that would be refused with 1 to 4 for what the run has; with 5 or 6, if it has none of these.
fn line_probe(run: &Run) -> Call {
    Call { line: run.line.clone(), ..run.arguments(SINGLE) }
}

/// A call that would be refused with 6, if at all.
fn part_probe(kind: usize, subtable: &[u8]) -> Call {
    let (line, size) = (vec![0; FORMS[0]], FORMS[0] as u64);
    Call { kind, s: 1000, u: 1000, size, missing: 1, line, subtable: subtable.to_vec(), ..Call::default() }
}

/// Are there one to eight subtables that add up to the buffer?
pub fn has_parts(run: &Run) -> bool {
    (1..=MOST).contains(&run.lens.len()) && run.adds_up()
}

fn probes(run: &Run) -> Vec<Call> {
    let mut calls = vec![line_probe(run)];
    if let (Some(kind), true) = (kind_of(run.lookup_type), has_parts(run)) {
        calls.extend((0..run.lens.len()).map(|k| part_probe(kind, run.part(k))));
    }
    calls
}

pub fn probed(runs: &[Run], oracle: &mut Side) -> Vec<Probed> {
    let calls: Vec<Vec<Call>> = runs.iter().map(probes).collect();
    let mut answers = oracle.ask(&calls.concat()).into_iter();
    let mut refusals = |n: usize| answers.by_ref().take(n).map(|a| a.refusal).collect::<Vec<u64>>();
    let of = |said: Vec<u64>| {
        let line = if said[0] < 5 { said[0] } else { 0 };
        Probed { line, bad: said[1..].iter().map(|n| *n == 6).collect() }
    };
    calls.iter().map(|c| of(refusals(c.len()))).collect()
}

/// The number of the refusal before the run begins, or 0.
pub fn verdict(run: &Run, probed: &Probed) -> u64 {
    if probed.line != 0 {
        probed.line
    } else if !has_parts(run) || run.places < run.exact_places() {
        8
    } else if kind_of(run.lookup_type).is_none() || probed.bad.contains(&true) {
        6
    } else {
        0
    }
}

fn refused(run: &Run, refusal: u64) -> Ran {
    let (line, list) = (run.line.clone(), lent_list(run.places));
    Ran { refusal, attached: 0, index: 0, count: 0, harm: 0, line, list }
}

/// How walks are taken to their ends.
pub type Way = fn(&mut [Walk], &mut Side);

/// What a run must leave, and how it came to that.
#[derive(Clone)]
pub struct Expected {
    pub ran: Ran,
    pub probed: Probed,
    pub story: Story,
}

/// What each run must leave, by the oracle's single calls.
pub fn expected(runs: &[Run], oracle: &mut Side, way: Way) -> Vec<Expected> {
    let all = by_rules(runs, &probed(runs, oracle), RIGHT, oracle, way);
    let stops_rightly = |e: &Expected| e.story.calls == 0 || matches!(e.ran.refusal, 0 | 7);
    assert!(all.iter().all(stops_rightly), "a call of a run was refused with another number than 7");
    all
}

/// What each run leaves by these rules, with the refusals that it must have before it begins.
pub fn by_rules(runs: &[Run], probed: &[Probed], rules: Rules, side: &mut Side, way: Way) -> Vec<Expected> {
    let verdicts: Vec<u64> = runs.iter().zip(probed).map(|(run, p)| verdict(run, p)).collect();
    let good = runs.iter().zip(&verdicts).filter(|(_, v)| **v == 0);
    let mut walks: Vec<Walk> = good.map(|(run, _)| Walk::new(run, rules)).collect();
    way(&mut walks, side);
    let mut walks = walks.into_iter();
    let mut out = vec![];
    for ((run, probed), verdict) in runs.iter().zip(probed).zip(verdicts) {
        let (ran, story) = match verdict {
            0 => walks.next().map(|w| (w.ran(), w.story)).unwrap(),
            n => (refused(run, n), Story::default()),
        };
        out.push(Expected { ran, probed: probed.clone(), story });
    }
    out
}
