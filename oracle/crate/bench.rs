//! One measured thing, for oracle/bench: `oracle-bench CALL CASE SLOTS SIDE TIMES` does it so many times, each time with the input put back first; with `best` for
//! TIMES it prints the best time of many of each side, in nanoseconds, and with `calls` how many calls it makes each time, once it is sure that the sides do the same. Sides:
//! `text` is the crate's text on its own structs; `slots` the same with slots read and written; `port` the library; `port-28` the library on slots with clusters;
//! `checks` the library, refusing by the check that it makes last; `copy-text`, `copy-28` and `copy` only put the input back and make empty calls, for `text`, `port-28` and
//! the others. A move has only `port`, `checks` and `copy`. Of a run the library's sides are one call of gpos_lookup, and `calls` are the single calls that it makes, one after
//! another.
use crate::buffer::{self, Buffer, GlyphPosition};
use crate::cases::{with_clusters, Case, NONE};
use crate::frame::*;
use crate::loaded::{coverage, Loaded};
use crate::ot::apply::{ApplyContext, Neighbour};
use crate::ot::gpos::{position_finish_offsets, position_start};
use crate::ot::lookup::coverage::Coverage;
use crate::serve::*;
use std::hint::black_box;

#[repr(C)]
struct GposAnswer([u64; 9]);

#[repr(C)]
struct GposRun([u64; 3]);

/// A line, the bytes of a slot, a subtable, direction, s, u and index; then what the call has besides. A move has a line and a target.
extern "C" {
    fn gpos_start(line: *mut u8, len: usize, size: usize) -> u32;
    fn gpos_finish(line: *mut u8, len: usize, size: usize, direction: u32, limit: u32, attachments: u32) -> u32;
    fn gpos_single(l: *mut u8, n: usize, z: usize, t: *const u8, m: usize, d: u32, s: u32, u: u32, i: usize) -> GposAnswer;
    fn gpos_pair(l: *mut u8, n: usize, z: usize, t: *const u8, m: usize, d: u32, s: u32, u: u32, i: usize, none: u32, second: usize) -> GposAnswer;
    fn gpos_cursive(l: *mut u8, n: usize, z: usize, t: *const u8, m: usize, d: u32, s: u32, u: u32, i: usize, none: u32, prev: usize, flag: u32) -> GposAnswer;
    fn gpos_mark_base(l: *mut u8, n: usize, z: usize, t: *const u8, m: usize, d: u32, s: u32, u: u32, i: usize) -> GposAnswer;
    fn gpos_mark_ligature(l: *mut u8, n: usize, z: usize, t: *const u8, m: usize, d: u32, s: u32, u: u32, i: usize) -> GposAnswer;
    fn gpos_mark_mark(l: *mut u8, n: usize, z: usize, t: *const u8, m: usize, d: u32, s: u32, u: u32, i: usize, none: u32, earlier: usize) -> GposAnswer;
    fn gpos_lookup(
        l: *mut u8, n: usize, z: usize, kind: u32, flag: u32, t: *const u8, m: usize, lens: *const usize, count: usize, d: u32, s: u32, u: u32,
        list: *mut [u64; 3], places: usize,
    ) -> GposRun;
    fn gpos_to_clusters(line: *const u8, len: usize, target: *mut u8, target_len: usize) -> u32;
    fn gpos_from_clusters(line: *const u8, len: usize, target: *mut u8, target_len: usize) -> u32;
}

/// The sides that are timed.
const SIDES: [&str; 6] = ["copy-text", "copy", "text", "slots", "port", "checks"];

struct Bench {
    kind: u8,
    direction: u32,
    size: usize,
    calls: Vec<(usize, usize)>,
    line: Vec<u8>,
    keep: Vec<u8>,
    subtable: &'static [u8],
    /// Of a move.
    target: Vec<u8>,
    positions: Vec<GlyphPosition>,
    /// The context of a whole lookup, with the buffer.
    ctx: ApplyContext<'static>,
    loaded: Option<(Coverage<'static>, Loaded<'static>)>,
    /// Is the library's side one run of the lookup? And its list of hazards.
    whole: bool,
    list: Vec<[u64; 3]>,
    /// What the calls refused, as a sum of numbers.
    refused: u64,
}

/// One call of the library.
type Call = fn(&mut Bench, usize, usize);
/// All calls of a case, in one way.
type Side = fn(&mut Bench, Call);

macro_rules! applying {
    ($f:ident, $b:ident, $index:expr $(, $more:expr)*) => {{
        let (line, len, table) = ($b.line.as_mut_ptr(), $b.line.len(), $b.subtable);
        let answer = unsafe { $f(line, len, $b.size, table.as_ptr(), table.len(), $b.direction, 1000, 1000, $index $(, $more)*) };
        $b.refused += black_box(&answer).0[0] >> 32;
    }};
}

macro_rules! moving {
    ($f:ident) => {
        |b, _, _| b.refused += u64::from(unsafe { $f(b.line.as_ptr(), b.line.len(), b.target.as_mut_ptr(), b.target.len()) })
    };
}

fn library(kind: u8) -> Call {
    match kind {
        START => |b, _, _| b.refused += u64::from(unsafe { gpos_start(b.line.as_mut_ptr(), b.line.len(), b.size) }),
        FINISH => |b, _, _| b.refused += u64::from(unsafe { gpos_finish(b.line.as_mut_ptr(), b.line.len(), b.size, b.direction, 64, 1) }),
        SINGLE => |b, index, _| applying!(gpos_single, b, index),
        PAIR => |b, index, near| applying!(gpos_pair, b, index, u32::from(near == NONE), near.min(b.calls.len())),
        CURSIVE => |b, index, near| applying!(gpos_cursive, b, index, u32::from(near == NONE), if near == NONE { 0 } else { near }, 0),
        MARK_BASE => |b, index, _| applying!(gpos_mark_base, b, index),
        MARK_LIGATURE => |b, index, _| applying!(gpos_mark_ligature, b, index),
        MARK_MARK => |b, index, near| applying!(gpos_mark_mark, b, index, u32::from(near == NONE), if near == NONE { 0 } else { near }),
        TO_CLUSTERS => moving!(gpos_to_clusters),
        _ => moving!(gpos_from_clusters),
    }
}

macro_rules! text {
    ($b:ident, $index:ident, $neighbour:expr) => {{
        let Some((coverage, loaded)) = &$b.loaded else { return };
        let ctx = &mut $b.ctx;
        ctx.buffer.idx = $index;
        ctx.buffer.hazard_count = 0;
        ctx.neighbour = $neighbour;
        let glyph = ctx.buffer.info[$index].as_glyph();
        black_box(coverage.get(glyph).and_then(|k| loaded.apply(ctx, k)));
    }};
}

fn text_of(kind: u8, whole: bool) -> Call {
    match kind {
        START => |b, _, _| position_start(b.ctx.buffer),
        FINISH => |b, _, _| position_finish_offsets(b.ctx.buffer),
        _ if whole => |b, index, near| text!(b, index, if near == NONE { Neighbour::Missing(0) } else { Neighbour::At(near) }),
        _ => |b, index, near| text!(b, index, Neighbour::At(near)),
    }
}

/// A call that does nothing, so that the making of calls is measured too.
fn nothing(_: &mut Bench, _: usize, _: usize) {}

fn each(b: &mut Bench, call: Call) {
    for k in 0..b.calls.len() {
        let (index, near) = b.calls[k];
        call(b, index, near);
    }
}

/// One run of the lookup in place of the calls.
fn run_whole(b: &mut Bench, _: Call) {
    let (line, len, table, list) = (b.line.as_mut_ptr(), b.line.len(), b.subtable, b.list.as_mut_ptr());
    let (kind, m) = (u32::from(b.kind - SINGLE) + 1, table.len());
    let ran = unsafe { gpos_lookup(line, len, b.size, kind, 0, table.as_ptr(), m, &m, 1, b.direction, 1000, 1000, list, b.list.len()) };
    b.refused += black_box(&ran).0[0] & 0xFFFF_FFFF;
}

/// Of a run, nothing but the putting back.
fn no_run(_: &mut Bench, _: Call) {}

fn each_with_slots(b: &mut Bench, call: Call) {
    for k in 0..b.calls.len() {
        let (index, near) = b.calls[k];
        load(black_box(&b.line), 24, b.ctx.buffer);
        b.ctx.buffer.scratch_flags = buffer::HB_BUFFER_SCRATCH_FLAG_HAS_GPOS_ATTACHMENT;
        call(b, index, near);
        store(b.ctx.buffer, 24, &mut b.line);
    }
}

/// Puts the input back: the crate's, or the line. The search for a base remembers nothing of the line before.
fn put_back_text(b: &mut Bench) {
    b.ctx.buffer.pos.copy_from_slice(black_box(&b.positions));
    (b.ctx.last_base, b.ctx.last_base_until) = (-1, 0);
}

fn put_back_line(b: &mut Bench) {
    b.line.copy_from_slice(black_box(&b.keep));
    (b.ctx.last_base, b.ctx.last_base_until) = (-1, 0);
}

impl Bench {
    fn new(case: Case) -> Self {
        let places = 2 * case.line.len() / case.size;
        let buffer: &'static mut Buffer = Box::leak(Box::new(empty_buffer()));
        let subtable: &'static [u8] = case.subtable.leak();
        load(&case.line, case.size, buffer);
        buffer.direction = direction(case.direction);
        buffer.scratch_flags = buffer::HB_BUFFER_SCRATCH_FLAG_HAS_GPOS_ATTACHMENT;
        let positions = buffer.pos.clone();
        let request = Request {
            kind: case.kind,
            direction: case.direction,
            s: 1000,
            u: 1000,
            limit: 64,
            attachments: true,
            neighbour: Neighbour::None,
            lookup_flag: 0,
            size: case.size,
            index: 0,
            line: &[],
            subtable,
        };
        Self {
            kind: case.kind,
            direction: case.direction,
            size: case.size,
            calls: case.calls,
            line: case.line.clone(),
            keep: case.line,
            subtable,
            target: if case.kind >= TO_CLUSTERS { subtable.to_vec() } else { vec![] },
            positions,
            ctx: context(&request, buffer),
            loaded: (case.kind >= SINGLE && case.kind < TO_CLUSTERS).then(|| (coverage(subtable), Loaded::new(case.kind, subtable, case.kern).unwrap())),
            whole: case.run,
            list: if case.run { vec![[0; 3]; places] } else { vec![] },
            refused: 0,
        }
    }
    /// A case as a side needs it.
    fn for_side(name: &str, case: Case) -> Self {
        Self::new(match name {
            "checks" => case.spoilt(),
            "port-28" | "copy-28" => case.with_clusters(),
            _ => case,
        })
    }
    /// How a side puts the input back, how it makes the calls, and what one call is.
    fn side(&self, name: &str) -> (fn(&mut Self), Side, Call) {
        let (text, library) = (text_of(self.kind, self.whole), library(self.kind));
        match name {
            "port" | "port-28" | "checks" if self.whole => (put_back_line, run_whole, nothing),
            "copy" | "copy-28" if self.whole => (put_back_line, no_run, nothing),
            "calls" => (put_back_line, each, library),
            "copy-calls" => (put_back_line, each, nothing),
            "text" => (put_back_text, each, text),
            "copy-text" => (put_back_text, each, nothing),
            "slots" => (put_back_line, each_with_slots, text),
            "port" | "port-28" | "checks" => (put_back_line, each, library),
            _ => (put_back_line, each, nothing),
        }
    }
    fn run(&mut self, (put_back, side, call): (fn(&mut Self), Side, Call), times: usize) {
        for _ in 0..times {
            put_back(self);
            black_box(side)(self, black_box(call));
            black_box(&mut *self);
        }
    }
    /// The nanoseconds of a run, the mean of so many.
    fn sample(&mut self, name: &str, times: usize) -> f64 {
        let began = std::time::Instant::now();
        self.run(self.side(name), times);
        began.elapsed().as_nanos() as f64 / times as f64
    }
    /// What the calls write to: the line, or a move's target.
    fn written(&self) -> Vec<u8> {
        if self.kind >= TO_CLUSTERS { &self.target } else { &self.line }.clone()
    }
    /// What a side leaves there.
    fn left(&mut self, name: &str) -> Vec<u8> {
        self.run(self.side(name), 1);
        if name == "text" {
            store(self.ctx.buffer, 24, &mut self.line);
        }
        self.written()
    }
}

/// The best time of one run of each side. Samples take 20 microseconds or more each, and the sides take turns, so that none has the machine's better moments.
fn best(made: impl Fn() -> Case) -> Vec<f64> {
    let mut sides = SIDES.map(|name| {
        let mut b = Bench::for_side(name, made());
        let mut times = 1;
        while b.sample(name, times) * (times as f64) < 20_000.0 {
            times *= 2;
        }
        (name, b, times, f64::MAX)
    });
    for _ in 0..400 {
        for (name, b, times, least) in &mut sides {
            *least = (0..10).map(|_| b.sample(name, *times)).fold(*least, f64::min);
        }
    }
    sides.iter().map(|s| s.3).collect()
}

/// Do the sides do the same, and do the checks refuse?
fn alike(made: impl Fn() -> Case) -> bool {
    let mut b = Bench::new(made());
    let port = b.left("port");
    let same = match b.kind {
        TO_CLUSTERS => port == with_clusters(&b.line),
        FROM_CLUSTERS => with_clusters(&port) == b.line,
        _ => {
            let mut wide = Bench::for_side("port-28", made());
            b.left("text") == port && b.left("slots") == port && wide.left("port-28") == with_clusters(&port) && wide.refused == 0
        }
    };
    let mut spoilt = Bench::for_side("checks", made());
    let before = spoilt.written();
    same && b.refused == 0 && spoilt.left("checks") == before && spoilt.refused > 0
}

/// A main of C's: the start of Rust's own reads the process's memory map, at which some emulators fail.
#[no_mangle]
extern "C" fn main() -> i32 {
    let words: Vec<String> = std::env::args().skip(1).collect();
    let [call, case, slots, side, times] = &words[..] else { panic!("CALL CASE SLOTS SIDE TIMES") };
    let made = || Case::new(call, case, slots.parse().unwrap());
    match times.as_str() {
        "best" => println!("{}", best(made).iter().map(f64::to_string).collect::<Vec<_>>().join(" ")),
        "calls" => {
            assert!(alike(made), "{call} {case}: the sides differ, or the checks find nothing");
            println!("{}", made().calls.len());
        }
        _ => {
            let mut b = Bench::for_side(side, made());
            b.run(b.side(side), times.parse().unwrap());
        }
    }
    0
}
