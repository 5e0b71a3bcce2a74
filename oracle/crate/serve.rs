//! Answers requests: refusals first, then the crate's text on the crate's own structs.
use crate::buffer::{self, Buffer, GlyphInfo, GlyphPosition};
use crate::frame::*;
use crate::loaded::{coverage, Loaded};
use crate::moves::moved;
use crate::ot;
use crate::ot::apply::ApplyContext;
use crate::refusal::refusal;
use crate::sequence::sequence;
use crate::{Direction, LayoutData, OtData, Scale};
use std::io::{Read, Write};

/// Inlined, so that where it is measured the size is a constant, as in a program of one form.
#[inline(always)]
pub fn load(line: &[u8], size: usize, buffer: &mut Buffer) {
    buffer.info.clear();
    buffer.pos.clear();
    for s in line.chunks_exact(size) {
        let mut info = GlyphInfo { glyph_id: be16(s, 0).into(), mask: u32::from(s[4] & 1), ..GlyphInfo::default() };
        info.set_lig_props_for_mark(s[2], s[3]);
        let mut props = 0;
        if s[4] & 2 != 0 {
            props |= buffer::GlyphPropsFlags::MARK.bits();
        }
        if s[4] & 4 != 0 {
            props |= buffer::GlyphPropsFlags::MULTIPLIED.bits();
        }
        info.set_glyph_props(props);
        let mut pos = GlyphPosition::default();
        pos.set_attach_type(s[5]);
        pos.set_attach_chain(be16(s, 6) as i16);
        pos.x_advance = be32(s, 8) as i32;
        pos.y_advance = be32(s, 12) as i32;
        pos.x_offset = be32(s, 16) as i32;
        pos.y_offset = be32(s, 20) as i32;
        buffer.info.push(info);
        buffer.pos.push(pos);
    }
    buffer.len = buffer.info.len();
    buffer.hazard_count = 0;
    buffer.scratch_flags = 0;
}

/// Writes back what a call may change; a cluster stays.
#[inline(always)]
pub fn store(buffer: &Buffer, size: usize, line: &mut [u8]) {
    for (s, p) in line.chunks_exact_mut(size).zip(&buffer.pos) {
        s[5] = p.attach_type();
        s[6..8].copy_from_slice(&p.attach_chain().to_be_bytes());
        s[8..12].copy_from_slice(&p.x_advance.to_be_bytes());
        s[12..16].copy_from_slice(&p.y_advance.to_be_bytes());
        s[16..20].copy_from_slice(&p.x_offset.to_be_bytes());
        s[20..24].copy_from_slice(&p.y_offset.to_be_bytes());
    }
}

pub fn direction(d: u32) -> Direction {
    match d {
        0 => Direction::LeftToRight,
        1 => Direction::RightToLeft,
        2 => Direction::TopToBottom,
        3 => Direction::BottomToTop,
        _ => Direction::Invalid,
    }
}

pub fn empty_buffer() -> Buffer {
    Buffer { direction: Direction::Invalid, idx: 0, len: 0, info: Vec::new(), pos: Vec::new(), scratch_flags: 0, hazards: [(0, 0, 0); 2], hazard_count: 0 }
}

pub fn context<'a>(r: &Request, buffer: &'a mut Buffer) -> ApplyContext<'a> {
    ApplyContext {
        layout: LayoutData { ot: OtData { coords: &[] } },
        scale: Scale { s: r.s.into(), u: r.u.into() },
        buffer,
        lookup_props: r.lookup_flag,
        last_base: -1,
        last_base_until: 0,
        neighbour: r.neighbour,
    }
}

/// Applies; None is a decline. Uncovered comes first, as in the crate, where the lookup asks the subtable's coverage before `apply`.
pub fn apply(r: &Request, ctx: &mut ApplyContext) -> Option<()> {
    let glyph = ctx.buffer.cur(0)?.as_glyph();
    let index = coverage(r.subtable).get(glyph)?;
    Loaded::new(r.kind, r.subtable, cfg!(crate_reading))?.apply(ctx, index)
}

/// Finishes with the limit as a parameter; where it is the crate's own, also with the crate's own function, which must leave the same.
fn finish(r: &Request, buffer: &mut Buffer, line: &mut [u8]) {
    if r.attachments {
        buffer.scratch_flags = buffer::HB_BUFFER_SCRATCH_FLAG_HAS_GPOS_ATTACHMENT;
    }
    let before = buffer.pos.clone();
    ot::gpos::at_limit::position_finish_offsets(buffer, r.limit as usize);
    store(buffer, r.size, line);
    if r.limit as usize == ot::layout::MAX_NESTING_LEVEL {
        buffer.pos = before;
        ot::gpos::position_finish_offsets(buffer);
        let mut again = r.line.to_vec();
        store(buffer, r.size, &mut again);
        assert!(again == line);
    }
}

/// What the search for a base remembers: what it found, and from where on it searched. A call by itself begins anew.
pub struct Memory {
    base: i32,
    until: u32,
}
pub const NOTHING: Memory = Memory { base: -1, until: 0 };

/// Applies, with what is remembered and will be.
fn apply_with(r: &Request, buffer: &mut Buffer, memory: &mut Memory) -> Option<()> {
    let mut ctx = context(r, buffer);
    (ctx.last_base, ctx.last_base_until) = (memory.base, memory.until);
    let done = apply(r, &mut ctx);
    *memory = Memory { base: ctx.last_base, until: ctx.last_base_until };
    done
}

/// An applying call that is not refused with 1 to 6.
fn applying(r: &Request, buffer: &mut Buffer, memory: &mut Memory, out: &mut Vec<u8>) {
    let fuel = match r.kind {
        MARK_BASE | MARK_LIGATURE | MARK_MARK => 64 * (buffer.len as u64 + 16),
        _ => u64::MAX,
    };
    bytemuck::FUEL.with(|f| f.set(fuel));
    let got = std::panic::catch_unwind(std::panic::AssertUnwindSafe(|| apply_with(r, &mut *buffer, memory)));
    bytemuck::FUEL.with(|f| f.set(u64::MAX));
    match got {
        Err(p) if p.is::<bytemuck::OutOfFuel>() => write(out, refused(7), r.line),
        Err(p) => std::panic::resume_unwind(p),
        Ok(done) => {
            let mut line = r.line.to_vec();
            store(buffer, r.size, &mut line);
            let attached = buffer.scratch_flags & buffer::HB_BUFFER_SCRATCH_FLAG_HAS_GPOS_ATTACHMENT != 0;
            let hazards = &buffer.hazards[..buffer.hazard_count];
            let (status, next) = if done.is_some() { (APPLIED, buffer.idx) } else { (DECLINED, 0) };
            write(out, Said { status, refusal: 0, attached, next, hazards }, &line);
        }
    }
}

/// Answers a call.
pub fn answer(r: &Request, buffer: &mut Buffer, memory: &mut Memory, out: &mut Vec<u8>) {
    if r.kind >= TO_CLUSTERS {
        return match moved(r) {
            Ok(target) => write(out, Said { status: DONE, ..Said::default() }, &target),
            Err(number) => write(out, refused(number), r.subtable),
        };
    }
    let number = refusal(r);
    if number != 0 {
        return write(out, refused(number), r.line);
    }
    load(r.line, r.size, buffer);
    buffer.idx = r.index;
    buffer.direction = direction(r.direction);
    if r.kind >= SINGLE {
        return applying(r, buffer, memory, out);
    }
    let mut line = r.line.to_vec();
    if r.kind == START {
        ot::gpos::position_start(buffer);
        store(buffer, r.size, &mut line);
    } else {
        finish(r, buffer, &mut line);
    }
    write(out, Said { status: DONE, ..Said::default() }, &line);
}

fn serve(request: &[u8], buffer: &mut Buffer, out: &mut Vec<u8>) {
    match request[0] {
        SEQUENCE => sequence(request, buffer, out),
        _ => answer(&parse(request), buffer, &mut { NOTHING }, out),
    }
}

/// Frames on standard input, a 32-bit big-endian length and the request; frames alike on standard output. An empty request asks to flush.
pub fn answer_frames() {
    let mut input = std::io::BufReader::with_capacity(1 << 20, std::io::stdin().lock());
    let mut output = std::io::BufWriter::with_capacity(1 << 20, std::io::stdout().lock());
    let mut buffer = empty_buffer();
    let (mut request, mut out) = (Vec::new(), Vec::new());
    let mut len = [0; 4];
    while input.read_exact(&mut len).is_ok() {
        request.resize(u32::from_be_bytes(len) as usize, 0);
        if request.is_empty() {
            output.flush().unwrap();
            continue;
        }
        input.read_exact(&mut request).unwrap();
        out.clear();
        if request[0] == KINDS {
            output.write_all(&[0, 0, 0, 10, 1, 1, 1, 1, 1, 1, 1, 1, 1, 1]).unwrap();
            continue;
        }
        serve(&request, &mut buffer, &mut out);
        output.write_all(&(out.len() as u32).to_be_bytes()).unwrap();
        output.write_all(&out).unwrap();
    }
}
