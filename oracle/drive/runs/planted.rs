//! Small faults in runs. Some are put between the driver and the port, in what is asked or in what is answered; some
//! are slips in the rules by which a run is made of single calls, and such a run is then made of the port's calls. A
//! comparison must notice each, or the runs that it makes are too tame.
use super::compare::{both, plan, Amount, Job};
use super::model::*;
use super::sequence::with_one_memory;
use super::*;
use crate::lines::is_bad;
use crate::sides::Side;

#[derive(Clone, Copy)]
enum Slip {
    /// The port gets another run. What single calls say of the right one is known.
    Asked(fn(&mut Run, &Probed)),
    /// The port's answer is changed.
    Said(fn(&Run, &Probed, &mut Ran)),
    Rules(Rules),
    /// The Rust goes on with what the search for a base found in the call before.
    Memory,
}

/// A fault in lookups that make calls of these kinds, to be noticed in each of these forms.
#[derive(Clone, Copy)]
pub struct Fault {
    name: &'static str,
    kinds: &'static [usize],
    forms: &'static [usize],
    slip: Slip,
}

const ALL: &[usize] = &[SINGLE, PAIR, CURSIVE, MARK_BASE, MARK_LIGATURE, MARK_MARK];
const ATTACHING: &[usize] = &[CURSIVE, MARK_BASE, MARK_LIGATURE, MARK_MARK];
/// Those that have hazards.
const UNSAFE: &[usize] = &[PAIR, CURSIVE, MARK_BASE, MARK_LIGATURE, MARK_MARK];
/// Those that have a neighbour, and those of which it is an earlier slot.
const NAMED: &[usize] = &[PAIR, CURSIVE, MARK_MARK];
const EARLIER: &[usize] = &[CURSIVE, MARK_MARK];
const MARKS: &[usize] = &[MARK_BASE, MARK_LIGATURE, MARK_MARK];
const SEARCHING: &[usize] = &[MARK_BASE, MARK_LIGATURE];

fn fault(name: &'static str, kinds: &'static [usize], slip: Slip) -> Fault {
    Fault { name, kinds, forms: &FORMS, slip }
}

fn asked(name: &'static str, kinds: &'static [usize], ask: fn(&mut Run, &Probed)) -> Fault {
    fault(name, kinds, Slip::Asked(ask))
}

fn said(name: &'static str, kinds: &'static [usize], say: fn(&Run, &Probed, &mut Ran)) -> Fault {
    fault(name, kinds, Slip::Said(say))
}

fn ruled(name: &'static str, kinds: &'static [usize], change: fn(&mut Rules)) -> Fault {
    let mut rules = RIGHT;
    change(&mut rules);
    fault(name, kinds, Slip::Rules(rules))
}

/// Was the run refused before it began?
fn is_refused(a: &Ran) -> bool {
    !matches!(a.refusal, 0 | 7)
}

/// A refusal before the run begins.
fn refuse(run: &Run, a: &mut Ran, refusal: u64, when: bool) {
    if when {
        (a.refusal, a.attached, a.index, a.count) = (refusal, 0, 0, 0);
        (a.line, a.list) = (run.line.clone(), lent_list(run.places));
    }
}

/// One number of a refusal in another's place.
fn renumber(a: &mut Ran, from: u64, to: u64, when: bool) {
    if a.refusal == from && when {
        a.refusal = to;
    }
}

fn has_no_type(run: &Run) -> bool {
    kind_of(run.lookup_type).is_none()
}

/// Is it refused with 8, if with nothing before that?
fn is_unfit(run: &Run) -> bool {
    !has_parts(run) || run.places < run.exact_places()
}

fn has_bad_slot(run: &Run) -> bool {
    run.line.chunks_exact(run.stride()).any(is_bad)
}

/// A subtable that covers nothing, and so declines without a hazard.
fn without_coverage(mut part: Vec<u8>) -> Vec<u8> {
    part[2..4].fill(0);
    part
}

/// Drops the subtables from this one on that are bad, as if they were not looked at.
fn drop_bad(run: &mut Run, probed: &Probed, from: usize) {
    if probed.bad.len() > 1 {
        let parts = run.parts().into_iter().enumerate();
        let kept: Vec<_> = parts.filter(|(k, _)| *k < from || !probed.bad[*k]).map(|(_, t)| t).collect();
        run.set_parts(&kept);
    }
}

/// Lends as many places as there must be where there are this many; those that are too many are not told back.
fn lend_places(run: &mut Run, enough: usize) {
    if has_parts(run) && run.places >= enough {
        run.places = run.places.max(run.exact_places());
    }
}

/// Is the slot seen, if slots are taken for 24 bytes?
fn is_seen_in_24(run: &Run, slot: usize) -> bool {
    run.line[FORMS[0] * slot + 4] & 1 == 1
}

fn is_mark(run: &Run, slot: usize) -> bool {
    run.line[run.stride() * slot + 4] & 2 == 2
}

fn change_places(a: &mut Ran, change: fn(&mut [u8])) {
    let written = a.written();
    a.list.chunks_mut(PLACE).take(written).for_each(change);
}

/// Which slots and subtables are tried.
fn turns() -> Vec<Fault> {
    vec![
        ruled("a slot that is not seen is not tried", ALL, |r| r.tried = |run, i| run.is_seen(i)),
        ruled("the first slot is not tried", ALL, |r| r.tried = |_, i| i > 0),
        ruled("the last slot is not tried", ALL, |r| r.tried = |run, i| i + 1 < run.slots()),
        ruled("slots from 256 on are not tried", ALL, |r| r.tried = |_, i| i < 256),
        ruled("the second subtable is never tried", ALL, |r| {
            r.part = |run, k| if k == 1 { without_coverage(run.part(k).to_vec()) } else { run.part(k).to_vec() }
        }),
        ruled("the eighth subtable is never tried", ALL, |r| {
            r.part = |run, k| if k == 7 { without_coverage(run.part(k).to_vec()) } else { run.part(k).to_vec() }
        }),
        ruled("subtables are tried from the last", ALL, |r| r.order = |nth, count| count - 1 - nth),
        ruled("all subtables are tried after one applied", ALL, |r| r.ends_turn = |_| false),
        ruled("a decline ends the turn", ALL, |r| r.ends_turn = |_| true),
        ruled("the run goes on a slot too far", ALL, |r| r.next = |_, a| a.next as usize + 1),
        ruled("a jump ends a slot too early", &[PAIR], |r| r.next = |i, a| (a.next as usize - 1).max(i + 1)),
        ruled("a pair goes on at the next slot", &[PAIR], |r| r.next = |i, _| i + 1),
        ruled("a part starts where the first does", ALL, |r| r.part = |run, k| part_from(run, k, 0)),
        ruled("a part starts where the one before does", ALL, |r| {
            r.part = |run, k| part_from(run, k, start_of(run, k.saturating_sub(1)));
        }),
        ruled("a part starts two bytes late", ALL, |r| {
            r.part = |run, k| part_from(run, k, start_of(run, k) + if k == 0 { 0 } else { 2 });
        }),
        ruled("a part goes on to the buffer's end", ALL, |r| r.part = part_to_end),
        fault("one memory of the search for all subtables", SEARCHING, Slip::Memory),
    ]
}

fn start_of(run: &Run, k: usize) -> usize {
    run.lens[..k].iter().sum::<u64>() as usize
}

/// The bytes of a part, if it started there.
fn part_from(run: &Run, k: usize, from: usize) -> Vec<u8> {
    let to = (from + run.lens[k] as usize).min(run.subtables.len());
    run.subtables[from.min(to)..to].to_vec()
}

fn part_to_end(run: &Run, k: usize) -> Vec<u8> {
    let from = start_of(run, k);
    let to = (from + 65536).min(run.subtables.len());
    run.subtables[from..to].to_vec()
}

/// Which slot is the neighbour.
fn neighbours() -> Vec<Fault> {
    let mut all = vec![
        ruled("a second that is not seen is taken", &[PAIR], |r| r.second = |run, i| (i + 1..run.slots()).next()),
        ruled("the second is the last seen slot", &[PAIR], |r| r.second = |run, i| seen(run, above(run, i).rev())),
        ruled("the second is searched a slot too far", &[PAIR], |r| {
            r.second = |run, i| seen(run, above(run, i).skip(1));
        }),
        ruled("the last slot is no second", &[PAIR], |r| r.second = |run, i| seen(run, i + 1..run.slots() - 1)),
        ruled("a seen mark is no second", &[PAIR], |r| {
            r.second = |run, i| seen(run, above(run, i).filter(|j| !is_mark(run, *j)));
        }),
        ruled("an earlier slot that is not seen is taken", EARLIER, |r| r.earlier = |_, i| i.checked_sub(1)),
        ruled("the earlier is the first seen slot", EARLIER, |r| r.earlier = |run, i| seen(run, 0..i)),
        ruled("the earlier is kept when the index moves", EARLIER, |r| {
            r.earlier = |run, i| seen(run, (0..i.saturating_sub(1)).rev());
        }),
        ruled("the first slot is no earlier one", EARLIER, |r| r.earlier = |run, i| seen(run, (1..i).rev())),
        ruled("only a mark is an earlier slot", EARLIER, |r| {
            r.earlier = |run, i| seen(run, (0..i).rev().filter(|j| is_mark(run, *j)));
        }),
        ruled("a missing second has the next slot as bound", &[PAIR], |r| r.bounds = |_, i| [i + 1, 0]),
        ruled("a missing second's bound is one less", &[PAIR], |r| r.bounds = |run, _| [run.slots() - 1, 0]),
        ruled("a missing earlier has the slot at hand as bound", EARLIER, |r| r.bounds = |_, i| [0, i]),
        ruled("without a second nothing is tried", &[PAIR], |r| r.tried = |run, i| seen(run, above(run, i)).is_some()),
        ruled("without an earlier slot nothing is tried", EARLIER, |r| r.tried = |run, i| seen(run, 0..i).is_some()),
    ];
    let mut narrow = ruled("seen bits are looked for every 24 bytes", NAMED, |r| {
        r.second = |run, i| above(run, i).find(|j| is_seen_in_24(run, *j));
        r.earlier = |run, i| (0..i).rev().find(|j| is_seen_in_24(run, *j));
    });
    narrow.forms = &FORMS[1..];
    all.push(narrow);
    all
}

fn above(run: &Run, index: usize) -> std::ops::Range<usize> {
    index + 1..run.slots()
}

/// The first of these slots that is seen.
fn seen(run: &Run, mut slots: impl Iterator<Item = usize>) -> Option<usize> {
    slots.find(|j| run.is_seen(*j))
}

/// How many hazards the answer has, if it hasn't this status.
fn unless(a: &Answer, status: u64) -> usize {
    if a.status == status {
        0
    } else {
        a.hazards as usize
    }
}

/// Changes what a stopped run leaves.
fn at_stop(a: &mut Ran, change: impl FnOnce(&mut Ran)) {
    if a.refusal == 7 {
        change(a);
    }
}

/// What is kept of the calls.
fn results() -> Vec<Fault> {
    vec![
        ruled("a decline's hazard is dropped", UNSAFE, |r| r.stored = |a| unless(a, DECLINED)),
        ruled("an applied call's hazards are dropped", UNSAFE, |r| r.stored = |a| unless(a, APPLIED)),
        ruled("only the first hazard of a call is stored", &[PAIR], |r| r.stored = |a| a.hazards.min(1) as usize),
        ruled("attached is what the last call says", ATTACHING, |r| r.attached = |_, a| a.attached),
        ruled("attached is never said", ATTACHING, |r| r.attached = |_, _| 0),
        ruled("declines at the slot of a stop don't count", SEARCHING, |r| r.stopped = |_, before| before),
        ruled("what would stop is passed over", MARKS, |r| r.stops = |_| false),
        said("a stop says done", MARKS, |_, _, a| at_stop(a, |a| (a.refusal, a.index) = (0, 0))),
        said("a stop names the slot behind", MARKS, |_, _, a| at_stop(a, |a| a.index += 1)),
        said("a stop names no slot", MARKS, |_, _, a| at_stop(a, |a| a.index = 0)),
        said("a stop has no count", MARKS, |_, _, a| at_stop(a, |a| a.count = 0)),
        said("a stop says attached", MARKS, |_, _, a| at_stop(a, |a| a.attached = 1)),
        said("a stop leaves the line as it was", MARKS, |run, _, a| at_stop(a, |a| a.line = run.line.clone())),
        said("a stop leaves the list as it was", MARKS, |run, _, a| at_stop(a, |a| a.list = lent_list(run.places))),
        said("done says the index at the end", ALL, |run, _, a| {
            if a.refusal == 0 {
                a.index = run.slots() as u64;
            }
        }),
        said("the count has 8 bits", UNSAFE, |_, _, a| a.count &= 255),
        said("start and end change places", UNSAFE, |_, _, a| change_places(a, |p| p[8..].rotate_left(8))),
        said("a break is a concat, and a concat a break", UNSAFE, |_, _, a| change_places(a, |p| p[0] ^= 3)),
        said("hazards are stored from the second place on", UNSAFE, |_, _, a| {
            if a.count > 0 {
                a.list.rotate_right(PLACE);
            }
        }),
        said("the place behind the last hazard is cleared", ALL, |_, _, a| {
            let behind = a.list.chunks_mut(PLACE).nth(a.count as usize);
            behind.into_iter().for_each(|place| place.fill(0));
        }),
        said("the list's last byte is cleared", ALL, |_, _, a| a.list.last_mut().into_iter().for_each(|b| *b = 0)),
    ]
}

/// What leads to refusals, and what they leave.
fn refusals() -> Vec<Fault> {
    vec![
        said("the list is written after a refusal", ALL, |_, _, a| {
            if is_refused(a) && a.list.len() >= PLACE {
                put_hazard(&mut a.list[..PLACE], [1, 0, 1]);
            }
        }),
        said("the line is written after a refusal", ALL, |_, _, a| {
            if is_refused(a) {
                a.line.last_mut().into_iter().for_each(|b| *b ^= 1);
            }
        }),
        said("6 comes before 8", ALL, |run, probed, a| {
            renumber(a, 8, 6, has_no_type(run) || probed.bad.contains(&true));
        }),
        said("8 comes before 4", ALL, |run, _, a| renumber(a, 4, 8, is_unfit(run))),
        said("8 comes before 3", ALL, |run, _, a| renumber(a, 3, 8, is_unfit(run))),
        said("8 comes before 2", ALL, |run, _, a| renumber(a, 2, 8, is_unfit(run))),
        said("8 comes before 1", ALL, |run, _, a| renumber(a, 1, 8, is_unfit(run))),
        said("4 comes before 3", ALL, |run, _, a| renumber(a, 3, 4, has_bad_slot(run))),
        asked("the last subtable is not checked", ALL, |run, p| drop_bad(run, p, run.lens.len().saturating_sub(1))),
        asked("only the first subtable is checked", ALL, |run, p| drop_bad(run, p, 1)),
        said("an empty line's subtables are not checked", ALL, |run, _, a| {
            renumber(a, 6, 0, run.line.is_empty() && !has_no_type(run));
        }),
        said("an empty line's type is not checked", ALL, |run, _, a| {
            renumber(a, 6, 0, run.line.is_empty() && has_no_type(run));
        }),
        said("an empty line is refused", ALL, |run, _, a| renumber(a, 0, 5, run.line.is_empty())),
        asked("a type has 8 bits", ALL, |run, _| run.lookup_type &= 255),
        asked("a type has 31 bits", ALL, |run, _| run.lookup_type &= !(1 << 31)),
        said("1,024 slots are one too many", ALL, |run, _, a| refuse(run, a, 1, run.slots() == 1024)),
        said("1,025 slots are allowed", ALL, |run, _, a| {
            renumber(a, 1, 8, run.line.len() == 1025 * run.stride());
        }),
    ]
}

/// The lengths, added up.
fn sum(run: &Run) -> u128 {
    run.lens.iter().map(|n| u128::from(*n)).sum()
}

/// Is their sum that of the buffer in 64 bits alone?
fn wraps(run: &Run) -> bool {
    !run.adds_up() && sum(run) as u64 == run.subtables.len() as u64
}

/// Places, counts and lengths.
fn sizes() -> Vec<Fault> {
    vec![
        asked("one place for each call is enough", ALL, |run, _| lend_places(run, run.exact_places() / 2)),
        asked("a place too few is enough", ALL, |run, _| lend_places(run, run.exact_places().saturating_sub(1))),
        asked("places for one subtable are enough", ALL, |run, _| lend_places(run, 2 * run.slots())),
        said("exact places are too few", ALL, |run, _, a| {
            refuse(run, a, 8, a.refusal == 0 && run.places == run.exact_places());
        }),
        said("a length sum has 64 bits", ALL, |run, _, a| renumber(a, 8, 6, wraps(run))),
        asked("a length has 32 bits", ALL, |run, _| run.lens.iter_mut().for_each(|n| *n &= 0xFFFF_FFFF)),
        asked("lengths may add up to less", ALL, |run, _| run.subtables.truncate(sum(run).min(1 << 30) as usize)),
        said("lengths may add up to more", ALL, |run, _, a| {
            renumber(a, 8, 6, sum(run) > run.subtables.len() as u128);
        }),
        said("no subtables are done", ALL, |run, _, a| renumber(a, 8, 0, run.lens.is_empty())),
        said("eight subtables are too many", ALL, |run, _, a| {
            refuse(run, a, 8, a.refusal == 0 && run.lens.len() == MOST);
        }),
        asked("nine subtables are allowed", ALL, |run, _| {
            if run.lens.len() == MOST + 1 && run.adds_up() {
                let parts = run.parts();
                run.set_parts(&parts[1..]);
            }
        }),
        asked("a count has 8 bits", ALL, |run, _| run.lens.truncate(run.lens.len() % 256)),
        asked("a count has 16 bits", ALL, |run, _| run.lens.truncate(run.lens.len() % 65536)),
    ]
}

/// What is passed on to the calls, and the forms.
fn arguments() -> Vec<Fault> {
    let cluster = |name, say| Fault { forms: &FORMS[1..], ..said(name, ALL, say) };
    let other = |name, say| Fault { forms: &[NO_FORM], ..said(name, ALL, say) };
    vec![
        asked("the lookup flag is not passed on", &[CURSIVE], |run, _| run.lookup_flag = 0),
        asked("any bit of the flag is RIGHT_TO_LEFT", &[CURSIVE], |run, _| run.lookup_flag = run.lookup_flag.min(1)),
        asked("right to left is left to right", &[CURSIVE], |run, _| run.direction -= u32::from(run.direction == 1)),
        asked("top to bottom is left to right", ALL, |run, _| run.direction -= 2 * u32::from(run.direction == 2)),
        asked("s and u change places", ALL, |run, _| {
            if (16..=16_384).contains(&run.s) {
                (run.s, run.u) = (run.u, run.s);
            }
        }),
        asked("type 5 is run as 4, and 4 as 5", SEARCHING, |run, _| {
            if (4..=5).contains(&run.lookup_type) {
                run.lookup_type ^= 1;
            }
        }),
        asked("type 6 is run as 4", &[MARK_MARK], |run, _| run.lookup_type -= 2 * u32::from(run.lookup_type == 6)),
        cluster("a run changes a cluster's last byte", |_, _, a| {
            if a.refusal == 0 {
                a.line.last_mut().into_iter().for_each(|b| *b ^= 1);
            }
        }),
        other("size 26 is allowed", |run, _, a| renumber(a, 1, 8, run.size == 26)),
        other("the direction is looked at before the size", |run, _, a| renumber(a, 1, 2, run.direction > 3)),
    ]
}

/// The faults of a kind, each with a form in which it must be noticed.
fn planted(kind: usize) -> Vec<(Fault, usize)> {
    let mut out = vec![];
    for faults in [turns(), neighbours(), results(), refusals(), sizes(), arguments()] {
        for f in faults.into_iter().filter(|f| f.kinds.contains(&kind)) {
            out.extend(f.forms.iter().map(|form| (f, *form)));
        }
    }
    out
}

/// Some runs, what they must leave, and what the port leaves.
pub struct Asking {
    pub runs: Vec<Run>,
    pub theirs: Vec<Expected>,
    pub plain: Vec<Ran>,
}

pub struct Sides {
    pub oracle: Side,
    pub port: Side,
}

impl Sides {
    pub fn ask(&mut self, runs: Vec<Run>, way: Way) -> Asking {
        let (theirs, plain) = both(&runs, &mut self.oracle, &mut self.port, way);
        Asking { runs, theirs, plain }
    }
    /// Those that the change changes are asked anew.
    fn asked(&mut self, ask: fn(&mut Run, &Probed), all: &Asking, of: &[usize]) -> Vec<Ran> {
        let mut out: Vec<Ran> = of.iter().map(|k| all.plain[*k].clone()).collect();
        let (mut changed, mut places) = (vec![], vec![]);
        for (at, k) in of.iter().enumerate() {
            let mut run = all.runs[*k].clone();
            ask(&mut run, &all.theirs[*k].probed);
            if run != all.runs[*k] {
                changed.push(run);
                places.push(at);
            }
        }
        for (at, mut ran) in places.into_iter().zip(self.port.ask(&changed)) {
            ran.list.truncate(PLACE * all.runs[of[at]].places);
            out[at] = ran;
        }
        out
    }
    fn said(&self, say: fn(&Run, &Probed, &mut Ran), all: &Asking, of: &[usize]) -> Vec<Ran> {
        let one = |k: &usize| {
            let mut ran = all.plain[*k].clone();
            say(&all.runs[*k], &all.theirs[*k].probed, &mut ran);
            ran
        };
        of.iter().map(one).collect()
    }
    /// The runs by these rules, of the port's calls; or by the right ones with one memory, of the oracle's.
    fn ruled(&mut self, rules: Option<Rules>, all: &Asking, of: &[usize]) -> Vec<Ran> {
        let runs: Vec<Run> = of.iter().map(|k| all.runs[*k].clone()).collect();
        let probed: Vec<Probed> = of.iter().map(|k| all.theirs[*k].probed.clone()).collect();
        let left = match rules {
            Some(rules) => by_rules(&runs, &probed, rules, &mut self.port, by_calls),
            None => by_rules(&runs, &probed, RIGHT, &mut self.oracle, with_one_memory),
        };
        left.into_iter().map(|e| e.ran).collect()
    }
    fn faulty(&mut self, slip: Slip, all: &Asking, of: &[usize]) -> Vec<Ran> {
        match slip {
            Slip::Asked(ask) => self.asked(ask, all, of),
            Slip::Said(say) => self.said(say, all, of),
            Slip::Rules(rules) => self.ruled(Some(rules), all, of),
            Slip::Memory => self.ruled(None, all, of),
        }
    }
    /// The first of the runs of this form in which the fault is noticed.
    fn noticed(&mut self, f: &Fault, form: usize, all: &Asking) -> Option<usize> {
        let concerned: Vec<usize> = (0..all.runs.len()).filter(|k| all.runs[*k].form() == form).collect();
        concerned.chunks(100).find_map(|of| {
            let ours = self.faulty(f.slip, all, of);
            of.iter().zip(ours).find(|(k, ran)| *ran != all.theirs[**k].ran).map(|(k, _)| *k)
        })
    }
}

/// The faults of a kind that were not noticed yet.
pub struct Planting {
    kind: usize,
    pub left: Vec<(Fault, usize)>,
}

impl Planting {
    pub fn new(kind: usize) -> Self {
        Self { kind, left: planted(kind) }
    }
    /// A fault in words.
    fn name(&self, (f, form): (Fault, usize)) -> String {
        format!("runs of {:13} {}, {}", NAMES[self.kind], form_name(form), f.name)
    }
    pub fn names_left(&self) -> Vec<String> {
        self.left.iter().map(|f| self.name(*f)).collect()
    }
    /// The faults that these runs show, and the number of the first that does. They are planted no more.
    pub fn notice(&mut self, all: &Asking, sides: &mut Sides) -> Vec<(String, usize)> {
        let found = self.left.iter().map(|(f, form)| sides.noticed(f, *form, all)).collect::<Vec<_>>();
        let (mut noticed, mut left) = (vec![], vec![]);
        for (f, k) in self.left.iter().zip(found) {
            match k {
                Some(k) => noticed.push((self.name(*f), k)),
                None => left.push(*f),
            }
        }
        self.left = left;
        noticed
    }
}

/// Plants each fault of a kind in each form that it concerns; how many there are, and how many were not noticed.
fn run_kind(kind: usize, jobs: &[Job], sides: &mut Sides) -> (usize, usize) {
    let mut planting = Planting::new(kind);
    let (count, mut before) = (planting.left.len(), 0);
    for job in jobs {
        if planting.left.is_empty() {
            break;
        }
        let all = sides.ask(job.runs(), job.way());
        for (name, k) in planting.notice(&all, sides) {
            println!("{name}: noticed after {} runs", before + k + 1);
        }
        before += all.runs.len();
    }
    planting.names_left().iter().for_each(|name| println!("{name}: NOT NOTICED in {before} runs"));
    (count, planting.left.len())
}

/// Plants every fault, with this amount of runs for each kind at most, and says whether all were noticed.
pub fn run(kinds: &[usize], oracle: &[String], port: &[String], amount: Amount) -> bool {
    let mut sides = Sides { oracle: Side::start(oracle), port: Side::start(port) };
    let (mut count, mut missed) = (0, 0);
    for &kind in kinds.iter().filter(|k| is_applying(**k)) {
        let jobs = plan(&[kind], Amount { every: 7, ..amount });
        let (planted, not_noticed) = run_kind(kind, &jobs, &mut sides);
        count += planted;
        missed += not_noticed;
    }
    println!("{count} faults planted in runs, {missed} not noticed");
    missed == 0
}
