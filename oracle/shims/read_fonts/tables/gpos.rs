//! Value records, anchors and the positioning subtables.
use super::layout::{ClassDef, CoverageTable};
use crate::{FontData, FontRead, ReadError};
use core::ops::Range;

#[derive(Clone, Copy, PartialEq, Eq, Debug)]
pub struct ValueFormat(u16);
impl ValueFormat {
    pub const X_PLACEMENT: Self = Self(1);
    pub const Y_PLACEMENT: Self = Self(2);
    pub const X_ADVANCE: Self = Self(4);
    pub const Y_ADVANCE: Self = Self(8);
    pub const X_PLACEMENT_DEVICE: Self = Self(0x10);
    pub const Y_PLACEMENT_DEVICE: Self = Self(0x20);
    pub const X_ADVANCE_DEVICE: Self = Self(0x40);
    pub const Y_ADVANCE_DEVICE: Self = Self(0x80);
    pub const ANY_DEVICE_OR_VARIDX: Self = Self(0xF0);
    #[inline(always)]
    pub fn from_bits(v: u16) -> Self {
        Self(v)
    }
    #[inline(always)]
    pub fn contains(self, o: Self) -> bool {
        self.0 & o.0 == o.0
    }
    #[inline(always)]
    pub fn intersects(self, o: Self) -> bool {
        self.0 & o.0 != 0
    }
    #[inline(always)]
    pub fn is_empty(self) -> bool {
        self.0 == 0
    }
    #[inline(always)]
    pub fn record_byte_len(self) -> usize {
        2 * self.0.count_ones() as usize
    }
}

#[derive(Clone, Copy)]
pub struct ValueRecord<'a> {
    data: FontData<'a>,
    at: usize,
    format: ValueFormat,
}
impl<'a> ValueRecord<'a> {
    #[inline(always)]
    pub fn new(data: FontData<'a>, at: usize, format: ValueFormat) -> Self {
        Self { data, at, format }
    }
    /// `None` when the record isn't wholly inside.
    #[inline(always)]
    pub fn bytes(&self) -> Option<&'a [u8]> {
        self.data
            .as_bytes()
            .get(self.at..self.at + self.format.record_byte_len())
    }
    #[inline(always)]
    pub fn format(&self) -> ValueFormat {
        self.format
    }
    #[inline(always)]
    pub fn offset_data(&self) -> FontData<'a> {
        self.data
    }
    #[inline(always)]
    pub fn offset(&self) -> usize {
        self.at
    }
    #[inline(always)]
    pub fn byte_len(&self) -> usize {
        self.format.record_byte_len()
    }
    /// Whether there is no record, by its format alone.
    #[inline(always)]
    pub fn is_empty(&self) -> bool {
        self.format.is_empty()
    }
}

#[derive(Clone, Copy)]
pub struct ClassValueRecords<'a> {
    data: FontData<'a>,
    f1: ValueFormat,
    f2: ValueFormat,
    n1: u16,
    n2: u16,
}
impl<'a> ClassValueRecords<'a> {
    /// `None` where a class is not below its count, or the record is cut.
    #[inline(always)]
    pub fn get(&self, c1: u16, c2: u16) -> Option<[ValueRecord<'a>; 2]> {
        if c1 >= self.n1 || c2 >= self.n2 {
            return None;
        }
        let (l1, l2) = (self.f1.record_byte_len(), self.f2.record_byte_len());
        let at = 16 + (c1 as usize * self.n2 as usize + c2 as usize) * (l1 + l2);
        if at + l1 + l2 > self.data.len() {
            return None;
        }
        Some([
            ValueRecord::new(self.data, at, self.f1),
            ValueRecord::new(self.data, at + l1, self.f2),
        ])
    }
}

/// Anchor formats 1 to 3.
#[derive(Clone, Copy)]
pub struct AnchorTable<'a>(FontData<'a>);
impl<'a> FontRead<'a> for AnchorTable<'a> {
    #[inline(always)]
    fn read(d: FontData<'a>) -> Result<Self, ReadError> {
        let size = match d.read_at::<u16>(0)? {
            1 => 6,
            2 => 8,
            3 => 10,
            _ => return Err(ReadError),
        };
        if d.len() < size {
            return Err(ReadError);
        }
        Ok(Self(d))
    }
}
impl AnchorTable<'_> {
    #[inline(always)]
    pub fn x_coordinate(&self) -> i16 {
        self.0.read_at(2).unwrap()
    }
    #[inline(always)]
    pub fn y_coordinate(&self) -> i16 {
        self.0.read_at(4).unwrap()
    }
}

macro_rules! narrow {
    ($name:ident, $format:expr, $header:expr) => {
        pub struct $name<'a>(FontData<'a>);
        impl<'a> FontRead<'a> for $name<'a> {
            fn read(d: FontData<'a>) -> Result<Self, ReadError> {
                if d.len() < $header || d.read_at::<u16>(0)? != $format {
                    return Err(ReadError);
                }
                Ok(Self(d))
            }
        }
        #[allow(dead_code)]
        impl<'a> $name<'a> {
            pub fn offset_data(&self) -> FontData<'a> {
                self.0
            }
            fn n(&self, at: usize) -> u16 {
                self.0.read_at(at).unwrap()
            }
            fn f(&self, at: usize) -> ValueFormat {
                ValueFormat(self.n(at))
            }
            pub fn coverage(&self) -> Result<CoverageTable<'a>, ReadError> {
                self.0.sub(2)
            }
        }
    };
}
narrow!(SinglePosFormat1, 1, 6);
impl<'a> SinglePosFormat1<'a> {
    pub fn value_format(&self) -> ValueFormat {
        self.f(4)
    }
    pub fn value_record_byte_range(&self) -> Range<usize> {
        6..6 + self.f(4).record_byte_len()
    }
}
narrow!(SinglePosFormat2, 2, 8);
impl<'a> SinglePosFormat2<'a> {
    pub fn value_format(&self) -> ValueFormat {
        self.f(4)
    }
    pub fn value_count(&self) -> u16 {
        self.n(6)
    }
    pub fn value_records_byte_range(&self) -> Range<usize> {
        8..8 + self.f(4).record_byte_len() * self.n(6) as usize
    }
}
narrow!(PairPosFormat1, 1, 10);
impl<'a> PairPosFormat1<'a> {
    pub fn value_format1(&self) -> ValueFormat {
        self.f(4)
    }
    pub fn value_format2(&self) -> ValueFormat {
        self.f(6)
    }
    pub fn pair_set_offsets_byte_range(&self) -> Range<usize> {
        10..10 + 2 * self.n(8) as usize
    }
}
narrow!(PairPosFormat2, 2, 16);
impl<'a> PairPosFormat2<'a> {
    pub fn value_format1(&self) -> ValueFormat {
        self.f(4)
    }
    pub fn value_format2(&self) -> ValueFormat {
        self.f(6)
    }
    pub fn class_def1(&self) -> Result<ClassDef<'a>, ReadError> {
        self.0.sub(8)
    }
    pub fn class_def2(&self) -> Result<ClassDef<'a>, ReadError> {
        self.0.sub(10)
    }
    pub fn class1_count(&self) -> u16 {
        self.n(12)
    }
    pub fn class2_count(&self) -> u16 {
        self.n(14)
    }
    pub fn class2_count_byte_range(&self) -> Range<usize> {
        14..16
    }
    pub fn class_value_records(&self) -> ClassValueRecords<'a> {
        ClassValueRecords {
            data: self.0,
            f1: self.f(4),
            f2: self.f(6),
            n1: self.n(12),
            n2: self.n(14),
        }
    }
}
narrow!(CursivePosFormat1, 1, 6);
impl<'a> CursivePosFormat1<'a> {
    pub fn entry_exit_record_byte_range(&self) -> Range<usize> {
        6..6 + 4 * self.n(4) as usize
    }
}

/// A mark, base, ligature or mark2 array: two bytes of count.
pub struct CountedArray<'a>(FontData<'a>);
impl<'a> FontRead<'a> for CountedArray<'a> {
    fn read(d: FontData<'a>) -> Result<Self, ReadError> {
        d.read_at::<u16>(0)?;
        Ok(Self(d))
    }
}
impl<'a> CountedArray<'a> {
    pub fn offset_data(&self) -> FontData<'a> {
        self.0
    }
    pub fn mark_count(&self) -> u16 {
        self.0.read_at(0).unwrap()
    }
    pub fn ligature_attach_offsets_byte_range(&self) -> Range<usize> {
        2..2 + 2 * self.mark_count() as usize
    }
}
macro_rules! marks {
    ($name:ident, $cov:ident, $array:ident, $marks:ident) => {
        narrow!($name, 1, 12);
        impl<'a> $name<'a> {
            pub fn $cov(&self) -> Result<CoverageTable<'a>, ReadError> {
                self.0.sub(4)
            }
            pub fn mark_class_count(&self) -> u16 {
                self.n(6)
            }
            pub fn $marks(&self) -> Result<CountedArray<'a>, ReadError> {
                self.0.sub(8)
            }
            pub fn $array(&self) -> Result<CountedArray<'a>, ReadError> {
                self.0.sub(10)
            }
        }
    };
}
marks!(MarkBasePosFormat1, base_coverage, base_array, mark_array);
marks!(MarkLigPosFormat1, ligature_coverage, ligature_array, mark_array);
marks!(MarkMarkPosFormat1, mark2_coverage, mark2_array, mark1_array);

#[path = "wide.rs"]
mod wide;
pub use wide::*;
