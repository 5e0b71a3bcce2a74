//! Coverage and class lists.
use crate::types::*;
use crate::{AnyBytes, FontData, FontRead, ReadError};

#[repr(C)]
#[derive(Clone, Copy)]
pub struct RangeRecord {
    start: BigEndian<GlyphId16>,
    end: BigEndian<GlyphId16>,
    index: BigEndian<u16>,
}
unsafe impl AnyBytes for RangeRecord {}
impl RangeRecord {
    #[inline(always)]
    pub fn start_glyph_id(&self) -> GlyphId16 {
        self.start.get()
    }
    #[inline(always)]
    pub fn end_glyph_id(&self) -> GlyphId16 {
        self.end.get()
    }
    #[inline(always)]
    pub fn start_coverage_index(&self) -> u16 {
        self.index.get()
    }
}
#[repr(C)]
#[derive(Clone, Copy)]
pub struct ClassRangeRecord {
    start: BigEndian<GlyphId16>,
    end: BigEndian<GlyphId16>,
    class: BigEndian<u16>,
}
unsafe impl AnyBytes for ClassRangeRecord {}
impl ClassRangeRecord {
    #[inline(always)]
    pub fn start_glyph_id(&self) -> GlyphId16 {
        self.start.get()
    }
    #[inline(always)]
    pub fn end_glyph_id(&self) -> GlyphId16 {
        self.end.get()
    }
    #[inline(always)]
    pub fn class(&self) -> u16 {
        self.class.get()
    }
}
// 24-bit: never made.
#[derive(Clone, Copy)]
pub enum RangeRecord2 {}
impl RangeRecord2 {
    pub fn start_glyph_id(&self) -> GlyphId24 {
        match *self {}
    }
    pub fn end_glyph_id(&self) -> GlyphId24 {
        match *self {}
    }
    pub fn start_coverage_index(&self) -> Uint24 {
        match *self {}
    }
}
#[derive(Clone, Copy)]
pub enum ClassRangeRecord2 {}
impl ClassRangeRecord2 {
    pub fn start_glyph_id(&self) -> GlyphId24 {
        match *self {}
    }
    pub fn end_glyph_id(&self) -> GlyphId24 {
        match *self {}
    }
    pub fn class(&self) -> u16 {
        match *self {}
    }
}

pub struct Cov1<'a>(&'a [BigEndian<GlyphId16>]);
impl<'a> Cov1<'a> {
    pub fn glyph_array(&self) -> &'a [BigEndian<GlyphId16>] {
        self.0
    }
}
pub struct Cov2<'a>(&'a [RangeRecord]);
impl<'a> Cov2<'a> {
    pub fn range_records(&self) -> &'a [RangeRecord] {
        self.0
    }
}
pub struct Cov3<'a>(core::convert::Infallible, core::marker::PhantomData<&'a ()>);
impl<'a> Cov3<'a> {
    pub fn glyph_array(&self) -> &'a [BigEndian<GlyphId24>] {
        match self.0 {}
    }
}
pub struct Cov4<'a>(core::convert::Infallible, core::marker::PhantomData<&'a ()>);
impl<'a> Cov4<'a> {
    pub fn range_records(&self) -> &'a [RangeRecord2] {
        match self.0 {}
    }
}
pub enum CoverageTable<'a> {
    Format1(Cov1<'a>),
    Format2(Cov2<'a>),
    Format3(Cov3<'a>),
    Format4(Cov4<'a>),
}
impl<'a> FontRead<'a> for CoverageTable<'a> {
    fn read(d: FontData<'a>) -> Result<Self, ReadError> {
        let n = d.read_at::<u16>(2)? as usize;
        match d.read_at::<u16>(0)? {
            1 => Ok(Self::Format1(Cov1(d.read_array(4..4 + 2 * n)?))),
            2 => Ok(Self::Format2(Cov2(d.read_array(4..4 + 6 * n)?))),
            _ => Err(ReadError),
        }
    }
}

pub struct Class1<'a>(GlyphId16, &'a [BigEndian<u16>]);
impl<'a> Class1<'a> {
    pub fn start_glyph_id(&self) -> GlyphId16 {
        self.0
    }
    pub fn class_value_array(&self) -> &'a [BigEndian<u16>] {
        self.1
    }
}
pub struct Class2<'a>(&'a [ClassRangeRecord]);
impl<'a> Class2<'a> {
    pub fn class_range_records(&self) -> &'a [ClassRangeRecord] {
        self.0
    }
}
pub struct Class3<'a>(core::convert::Infallible, core::marker::PhantomData<&'a ()>);
impl<'a> Class3<'a> {
    pub fn start_glyph_id(&self) -> GlyphId24 {
        match self.0 {}
    }
    pub fn class_value_array(&self) -> &'a [BigEndian<Uint24>] {
        match self.0 {}
    }
}
pub struct Class4<'a>(core::convert::Infallible, core::marker::PhantomData<&'a ()>);
impl<'a> Class4<'a> {
    pub fn class_range_records(&self) -> &'a [ClassRangeRecord2] {
        match self.0 {}
    }
}
pub enum ClassDef<'a> {
    Format1(Class1<'a>),
    Format2(Class2<'a>),
    Format3(Class3<'a>),
    Format4(Class4<'a>),
}
impl<'a> FontRead<'a> for ClassDef<'a> {
    fn read(d: FontData<'a>) -> Result<Self, ReadError> {
        match d.read_at::<u16>(0)? {
            1 => {
                let n = d.read_at::<u16>(4)? as usize;
                let start = d.read_array::<BigEndian<GlyphId16>>(2..4)?[0].get();
                Ok(Self::Format1(Class1(start, d.read_array(6..6 + 2 * n)?)))
            }
            2 => {
                let n = d.read_at::<u16>(2)? as usize;
                Ok(Self::Format2(Class2(d.read_array(4..4 + 6 * n)?)))
            }
            _ => Err(ReadError),
        }
    }
}
