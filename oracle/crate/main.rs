//! The crate's own text (build.py takes it) among shims. Whatever stands in this file is a shim; "crate text" marks where the text comes in.
#![cfg_attr(bench, no_main)]
#![allow(dead_code, unused_imports, unused_macros, non_camel_case_types, clippy::all)]
extern crate alloc;

// crate text: buffer_message!, message!, ... from buffer.rs
include!(concat!(env!("GEN"), "/text_macros.rs"));

#[path = "gen/hint.rs"]
mod hint; // crate text, whole file
#[path = "gen/budget.rs"]
mod budget; // crate text, whole file
#[path = "gen/set_digest.rs"]
mod set_digest; // crate text, whole file

#[derive(Clone, Copy, PartialEq, Eq, Debug)]
pub enum Direction {
    Invalid,
    LeftToRight,
    RightToLeft,
    TopToBottom,
    BottomToTop,
}
impl Direction {
    #[inline(always)]
    pub fn is_horizontal(self) -> bool {
        matches!(self, Self::LeftToRight | Self::RightToLeft)
    }
    #[inline(always)]
    pub fn is_forward(self) -> bool {
        matches!(self, Self::LeftToRight | Self::TopToBottom)
    }
}

/// The scale: vs / u to the nearest, a tie away from zero. Rust's division goes toward zero, so half a unit is added
/// with the sign of v.
#[derive(Clone, Copy)]
pub struct Scale {
    s: i64,
    u: i64,
}
impl Scale {
    #[inline(always)]
    fn of(self, v: i64) -> i32 {
        let half = if v < 0 { -self.u } else { self.u };
        i32::try_from((2 * v * self.s + half) / (2 * self.u)).unwrap()
    }
    #[inline(always)]
    pub fn scale_x(self, v: i32) -> i32 {
        self.of(v.into())
    }
    #[inline(always)]
    pub fn scale_y(self, v: i32) -> i32 {
        self.of(v.into())
    }
    #[inline(always)]
    pub fn scale_x_f(self, v: f32) -> i32 {
        self.of(v as i64)
    }
    #[inline(always)]
    pub fn scale_y_f(self, v: f32) -> i32 {
        self.of(v as i64)
    }
}

#[derive(Clone, Copy)]
pub struct OtData {
    pub coords: &'static [i16],
}
impl OtData {
    #[inline(always)]
    pub fn var_store(&self) -> Option<&'static read_fonts::tables::variations::ItemVariationStore> {
        None
    }
    #[inline(always)]
    pub fn resolve_anchor(&self, a: &read_fonts::tables::gpos::AnchorTable) -> (f32, f32) {
        (a.x_coordinate() as f32, a.y_coordinate() as f32)
    }
    pub fn gpos(&self) -> Option<()> {
        None
    }
}
#[derive(Clone, Copy)]
pub struct LayoutData {
    pub ot: OtData,
}
pub struct ShaperFont<'a, 'b>(core::marker::PhantomData<(&'a (), &'b ())>);
impl ShaperFont<'_, '_> {
    pub fn layout(&self) -> LayoutData {
        LayoutData { ot: OtData { coords: &[] } }
    }
}
mod plan {
    pub struct ShapePlan;
}
pub type Mask = u32;

mod buffer {
    use crate::hint::Likely;
    use crate::{Direction, Mask};
    use alloc::vec::Vec;
    use read_fonts::types::GlyphId;
    // crate text: GlyphPosition and its accessors, GlyphInfo, buffer_var_shape,
    // declare_buffer_var!
    include!(concat!(env!("GEN"), "/text_positions.rs"));

    pub const HB_BUFFER_SCRATCH_FLAG_HAS_GPOS_ATTACHMENT: u32 = 0x0000_0008;

    pub struct GlyphPropsFlags(u16);
    impl GlyphPropsFlags {
        pub const MARK: Self = Self(0x08);
        pub const MULTIPLIED: Self = Self(0x40);
        #[inline(always)]
        pub fn bits(&self) -> u16 {
            self.0
        }
    }
    // crate text: `impl GlyphInfo { .. }` with functions of layout.rs and buffer.rs
    include!(concat!(env!("GEN"), "/text_info_fns.rs"));

    pub const BREAK: u8 = 0;
    pub const CONCAT: u8 = 1;
    pub struct Buffer {
        pub direction: Direction,
        pub idx: usize,
        pub len: usize,
        pub info: Vec<GlyphInfo>,
        pub pos: Vec<GlyphPosition>,
        pub scratch_flags: u32,
        pub hazards: [(u8, usize, usize); 2],
        pub hazard_count: usize,
    }
    // crate text: `impl Buffer { .. }` with cur, cur_pos_mut
    include!(concat!(env!("GEN"), "/text_buffer_fns.rs"));
    impl Buffer {
        pub fn assert_gsubgpos_vars(&mut self) {}
        pub fn index_failed(&mut self) {
            panic!("index failed")
        }
        #[inline(always)]
        fn hazard(&mut self, kind: u8, start: Option<usize>, end: Option<usize>) {
            self.hazards[self.hazard_count] = (kind, start.unwrap(), end.unwrap());
            self.hazard_count += 1;
        }
        #[inline(always)]
        pub fn unsafe_to_break(&mut self, start: Option<usize>, end: Option<usize>) {
            self.hazard(BREAK, start, end);
        }
        #[inline(always)]
        pub fn unsafe_to_concat(&mut self, start: Option<usize>, end: Option<usize>) {
            self.hazard(CONCAT, start, end);
        }
        #[inline(always)]
        pub fn unsafe_to_concat_from_outbuffer(&mut self, start: Option<usize>, end: Option<usize>) {
            self.hazard(CONCAT, start, end);
        }
    }
}

mod ot {
    // crate text: lookup_flags from ot/mod.rs
    include!(concat!(env!("GEN"), "/text_lookup_flags.rs"));

    pub mod layout {
        // crate text: MAX_NESTING_LEVEL, MAX_CONTEXT_LENGTH
        include!(concat!(env!("GEN"), "/text_limits.rs"));
        pub fn apply_layout_table<T>(
            _: &crate::plan::ShapePlan,
            _: &crate::ShaperFont<'_, '_>,
            _: &mut crate::buffer::Buffer,
            _: Option<&T>,
        ) {
        }
    }

    #[path = "../gen/gpos_mod.rs"]
    pub mod gpos; // crate text, whole file (and an appended helper)

    pub mod apply {
        use crate::buffer::{Buffer, GlyphInfo};
        use crate::{LayoutData, Scale};

        pub struct MappingCache;
        impl MappingCache {
            pub fn new() -> Self {
                Self
            }
        }
        #[derive(PartialEq, Eq, Copy, Clone)]
        pub enum MatchResult {
            Match,
            NotMatch,
            Skip,
        }
        /// What the caller names.
        #[derive(Clone, Copy)]
        pub enum Neighbour {
            None,
            At(usize),
            Missing(usize),
        }
        pub struct ApplyContext<'a> {
            pub layout: LayoutData,
            pub scale: Scale,
            pub buffer: &'a mut Buffer,
            pub lookup_props: u32,
            pub last_base: i32,
            pub last_base_until: u32,
            pub neighbour: Neighbour,
        }
        impl ApplyContext<'_> {
            #[inline(always)]
            pub fn scale_x(&self, value: f32) -> i32 {
                self.scale.scale_x_f(value)
            }
            #[inline(always)]
            pub fn scale_y(&self, value: f32) -> i32 {
                self.scale.scale_y_f(value)
            }
        }
        pub struct SkippingIterator<'c> {
            pub buffer: &'c mut Buffer,
            pub buf_idx: usize,
            neighbour: Neighbour,
        }
        impl<'c> SkippingIterator<'c> {
            #[inline(always)]
            pub fn new(ctx: &'c mut ApplyContext<'_>, _context_match: bool) -> Self {
                SkippingIterator {
                    neighbour: ctx.neighbour,
                    buffer: ctx.buffer,
                    buf_idx: 0,
                }
            }
            pub fn set_lookup_props(&mut self, _: u32) {}
            pub fn reset(&mut self, at: usize) -> Option<()> {
                self.buf_idx = at;
                Some(())
            }
            pub fn reset_fast(&mut self, at: usize) {
                self.buf_idx = at;
            }
            #[inline(always)]
            pub fn index(&self) -> usize {
                self.buf_idx
            }
            #[inline(always)]
            fn step(&mut self, bound: Option<&mut usize>) -> bool {
                match self.neighbour {
                    Neighbour::At(i) => {
                        self.buf_idx = i;
                        true
                    }
                    Neighbour::Missing(b) => {
                        *bound.unwrap() = b;
                        false
                    }
                    Neighbour::None => panic!("no neighbour named"),
                }
            }
            #[inline(always)]
            pub fn next(&mut self, unsafe_to: Option<&mut usize>) -> bool {
                self.step(unsafe_to)
            }
            #[inline(always)]
            pub fn prev(&mut self, unsafe_from: Option<&mut usize>) -> bool {
                self.step(unsafe_from)
            }
            /// A slot matches if it is seen.
            #[inline(always)]
            pub fn match_at(&mut self, i: usize) -> MatchResult {
                if self.buffer.info[i].mask & 1 != 0 {
                    MatchResult::Match
                } else {
                    MatchResult::Skip
                }
            }
        }
    }

    pub mod lookup {
        use crate::budget::{Budget, Exhausted};
        use crate::ot::apply::MappingCache;
        use crate::set_digest::SetDigest;
        use read_fonts::types::GlyphId;
        use read_fonts::{FontData, FontRead};

        #[path = "../../gen/coverage.rs"]
        pub mod coverage; // crate text, whole file (doc build: one expression replaced)
        #[path = "../../gen/gpos_lookup.rs"]
        pub mod gpos; // crate text, whole file (and an appended helper)

        pub(crate) trait SubtableDigests<'a> {
            const CACHES_COVERAGE: bool = false;
            fn digest_second(&self, _: &Budget) -> Result<SetDigest, Exhausted> {
                Ok(SetDigest::full())
            }
        }
        #[inline(always)]
        pub fn read_uint(bytes: &[u8], at: usize, width: usize) -> u32 {
            let b = &bytes[at..at + width];
            match width {
                2 => u16::from_be_bytes([b[0], b[1]]).into(),
                _ => b.iter().fold(0, |v, b| v << 8 | u32::from(*b)),
            }
        }
        pub(crate) fn glyph_class_cached(c: &coverage::ClassDef, g: GlyphId, _: &MappingCache) -> u32 {
            c.get(g)
        }
        /// Numbers of `width` bytes.
        #[derive(Clone, Copy)]
        pub struct Uints<'a> {
            data: FontData<'a>,
            start: usize,
            count: usize,
            width: usize,
        }
        impl<'a> Uints<'a> {
            /// `None` unless all `count` numbers are inside.
            pub fn at(data: FontData<'a>, start: usize, count: usize, width: usize) -> Option<Self> {
                let end = start.checked_add(count.checked_mul(width)?)?;
                (end <= data.len()).then_some(Self { data, start, count, width })
            }
            /// There are as many numbers as the count says, less those that are cut.
            #[inline(always)]
            fn get(&self, index: usize) -> Option<u32> {
                if index >= self.count {
                    return None;
                }
                let at = self.start + index * self.width;
                if at + self.width > self.data.len() {
                    return None;
                }
                Some(read_uint(self.data.as_bytes(), at, self.width))
            }
        }
        #[derive(Clone, Copy)]
        pub struct Offsets<'a> {
            data: FontData<'a>,
            offsets: Uints<'a>,
        }
        impl<'a> Offsets<'a> {
            pub fn new(data: FontData<'a>, range: core::ops::Range<usize>, width: usize) -> Self {
                let count = (range.end - range.start) / width;
                Self { data, offsets: Uints { data, start: range.start, count, width } }
            }
            pub fn len(&self) -> usize {
                self.offsets.count
            }
            /// The part that starts at the offset; `None` when the offset is
            /// absent, 0 or past the end.
            #[inline(always)]
            pub fn data(&self, index: usize) -> Option<FontData<'a>> {
                match self.offsets.get(index)? {
                    0 => None,
                    off => self.data.split_off(off as usize),
                }
            }
            #[inline(always)]
            pub fn get<T: FontRead<'a>>(&self, index: usize) -> Option<T> {
                T::read(self.data(index)?).ok()
            }
        }
    }
}

mod frame;
mod loaded;
mod moves;
mod refusal;
mod sequence;
mod serve;

#[cfg(not(bench))]
fn main() {
    serve::answer_frames()
}

#[cfg(bench)]
mod bench;
#[cfg(bench)]
mod cases;
