//! The calls of a run in one frame, for long lines. The oracle makes them one after another, each as a call by itself
//! on the line that those before left, and passes over those that an applied one leads past. The walk must ask for
//! exactly the calls that were made.
use super::model::Walk;
use super::*;
use crate::sides::Side;

/// The request's first byte, and what the status of a call says that was passed over.
const KIND: u8 = 11;
const NOT_MADE: u64 = 4;

/// The bytes of an answer to a call, without a line.
const SAID: usize = 96;

pub struct Sequence<'a> {
    run: &'a Run,
    /// Does the search for a base go on with what the call before found? That is a slip of a run.
    remembers: bool,
    /// Each as a walk has it.
    calls: Vec<[usize; 4]>,
}

/// What the calls said, and the line that they leave.
pub struct Said {
    answers: Vec<Answer>,
    line: Vec<u8>,
}

impl Asked for Sequence<'_> {
    type Answer = Said;
    fn frame(&self) -> Vec<u8> {
        let run = self.run;
        let kind = kind_of(run.lookup_type).expect("one of the six types");
        let mut out = vec![KIND, kind as u8, self.remembers.into(), 0];
        let mut put = |n: usize| out.extend((n as u32).to_be_bytes());
        [run.direction, run.s, run.u, run.lookup_flag].iter().for_each(|n| put(*n as usize));
        [run.line.len(), run.lens.len(), self.calls.len(), run.size as usize].iter().for_each(|n| put(*n));
        run.lens.iter().for_each(|n| put(*n as usize));
        self.calls.iter().flatten().for_each(|n| put(*n));
        out.extend(&run.line);
        out.extend(&run.subtables);
        out
    }
    fn parse(&self, b: &[u8]) -> Said {
        let (said, line) = b.split_at(SAID * self.calls.len());
        Said { answers: said.chunks(SAID).map(Answer::parse).collect(), line: line.to_vec() }
    }
    fn died(&self) -> Said {
        crate::fail("the oracle died of a sequence of calls")
    }
}

/// Every call that the run could make.
fn sequence<'a>(walk: &Walk<'a>, remembers: bool) -> Sequence<'a> {
    let run = walk.run();
    let mut calls = vec![];
    for index in 0..run.slots() {
        let (missing, neighbour) = walk.neighbour(index);
        calls.extend((0..run.lens.len()).map(|number| [number, index, missing, neighbour]));
    }
    Sequence { run, remembers, calls }
}

/// Takes the walk through the calls that were made.
fn follow(walk: &mut Walk, calls: &[[usize; 4]], said: Said) {
    for (call, answer) in calls.iter().zip(&said.answers) {
        if answer.status != NOT_MADE {
            assert!(!walk.is_over() && walk.due() == *call, "a call was made that is not due");
            walk.take(answer);
        }
    }
    assert!(walk.is_over(), "a call that is due was not made");
    walk.line = said.line;
}

fn take(walks: &mut [Walk], side: &mut Side, remembers: bool) {
    let sequences: Vec<Sequence> = walks.iter().map(|w| sequence(w, remembers)).collect();
    let said = side.ask(&sequences);
    let calls: Vec<_> = sequences.into_iter().map(|s| s.calls).collect();
    for ((walk, calls), said) in walks.iter_mut().zip(calls).zip(said) {
        follow(walk, &calls, said);
    }
}

/// Takes every walk, by the right rules, to its end by one frame.
pub fn by_sequences(walks: &mut [Walk], side: &mut Side) {
    take(walks, side, false);
}

/// The same, with one memory of what was searched for all calls of a run.
pub fn with_one_memory(walks: &mut [Walk], side: &mut Side) {
    take(walks, side, true);
}
