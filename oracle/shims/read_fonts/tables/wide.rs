//! Tables with 24-bit numbers: types without values.
use super::{ClassValueRecords, ValueFormat};
use crate::tables::layout::{ClassDef, CoverageTable};
use crate::types::Uint24;
use crate::{FontData, ReadError};
use core::ops::Range;
use core::convert::Infallible as Never;
use core::marker::PhantomData;
pub struct WideArray<'a>(Never, PhantomData<&'a ()>);
impl<'a> WideArray<'a> {
    pub fn offset_data(&self) -> FontData<'a> {
        match self.0 {}
    }
    pub fn mark_count(&self) -> Uint24 {
        match self.0 {}
    }
    pub fn ligature_attach_offsets_byte_range(&self) -> Range<usize> {
        match self.0 {}
    }
}
macro_rules! wide {
    ($name:ident { $($m:ident : $t:ty),* $(,)? }) => {
        pub struct $name<'a>(Never, PhantomData<&'a ()>);
        impl<'a> $name<'a> {
            $(pub fn $m(&self) -> $t { match self.0 {} })*
        }
    };
}
type Cov<'a> = Result<CoverageTable<'a>, ReadError>;
type Cls<'a> = Result<ClassDef<'a>, ReadError>;
type Arr<'a> = Result<WideArray<'a>, ReadError>;
wide!(SinglePosFormat3 { offset_data: FontData<'a>, value_format: ValueFormat, value_record_byte_range: Range<usize> });
wide!(SinglePosFormat4 { offset_data: FontData<'a>, value_format: ValueFormat, value_records_byte_range: Range<usize>, value_count: Uint24 });
wide!(PairPosFormat3 { offset_data: FontData<'a>, value_format1: ValueFormat, value_format2: ValueFormat, pair_set_offsets_byte_range: Range<usize> });
wide!(PairPosFormat4 { offset_data: FontData<'a>, value_format1: ValueFormat, value_format2: ValueFormat, class_def1: Cls<'a>, class_def2: Cls<'a>, class_value_records: ClassValueRecords<'a>, class2_count_byte_range: Range<usize>, class1_count: u16, class2_count: u16 });
wide!(CursivePosFormat2 { offset_data: FontData<'a>, coverage: Cov<'a>, entry_exit_record_byte_range: Range<usize> });
wide!(MarkBasePosFormat2 { mark_class_count: u16, base_coverage: Cov<'a>, mark_array: Arr<'a>, base_array: Arr<'a> });
wide!(MarkLigPosFormat2 { mark_class_count: u16, ligature_coverage: Cov<'a>, mark_array: Arr<'a>, ligature_array: Arr<'a> });
wide!(MarkMarkPosFormat2 { mark_class_count: u16, mark2_coverage: Cov<'a>, mark1_array: Arr<'a>, mark2_array: Arr<'a> });
