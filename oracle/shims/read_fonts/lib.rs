//! Shim of the crate `read_fonts`: only what gpos.rs and coverage.rs name, and by docs/RULES.md. Tables with 24-bit numbers are types without values, so that
//! the text about them compiles and can't run.
#![allow(dead_code, unused_variables)]

#[derive(Clone, Copy, Debug, PartialEq, Eq)]
pub struct ReadError;

#[derive(Clone, Copy)]
pub struct FontData<'a> {
    bytes: &'a [u8],
}

pub trait Scalar: Sized {
    const LEN: usize;
    fn from_be(b: &[u8]) -> Self;
}
impl Scalar for u16 {
    const LEN: usize = 2;
    #[inline(always)]
    fn from_be(b: &[u8]) -> Self {
        u16::from_be_bytes([b[0], b[1]])
    }
}
impl Scalar for i16 {
    const LEN: usize = 2;
    #[inline(always)]
    fn from_be(b: &[u8]) -> Self {
        i16::from_be_bytes([b[0], b[1]])
    }
}
impl Scalar for u32 {
    const LEN: usize = 4;
    #[inline(always)]
    fn from_be(b: &[u8]) -> Self {
        u32::from_be_bytes([b[0], b[1], b[2], b[3]])
    }
}

/// A type whose every byte pattern is a value and whose alignment is 1.
/// # Safety
/// as said
pub unsafe trait AnyBytes: Copy {}

impl<'a> FontData<'a> {
    #[inline(always)]
    pub fn new(bytes: &'a [u8]) -> Self {
        Self { bytes }
    }
    #[inline(always)]
    pub fn as_bytes(&self) -> &'a [u8] {
        self.bytes
    }
    #[inline(always)]
    pub fn len(&self) -> usize {
        self.bytes.len()
    }
    #[inline(always)]
    pub fn split_off(&self, at: usize) -> Option<FontData<'a>> {
        self.bytes.get(at..).map(|bytes| FontData { bytes })
    }
    #[inline(always)]
    pub fn read_at<T: Scalar>(&self, at: usize) -> Result<T, ReadError> {
        let end = at.checked_add(T::LEN).ok_or(ReadError)?;
        self.bytes.get(at..end).map(T::from_be).ok_or(ReadError)
    }
    #[inline(always)]
    pub fn read_array<T: AnyBytes>(&self, range: core::ops::Range<usize>) -> Result<&'a [T], ReadError> {
        let b = self.bytes.get(range).ok_or(ReadError)?;
        let size = core::mem::size_of::<T>();
        if core::mem::align_of::<T>() != 1 || b.len() % size != 0 {
            return Err(ReadError);
        }
        Ok(unsafe { core::slice::from_raw_parts(b.as_ptr().cast(), b.len() / size) })
    }
    #[inline(always)]
    fn u16(&self, at: usize) -> Option<u16> {
        self.read_at::<u16>(at).ok()
    }
    /// The table at a 16-bit offset: an error when the offset is 0 or past
    /// the end.
    #[inline(always)]
    fn sub<T: FontRead<'a>>(&self, at: usize) -> Result<T, ReadError> {
        let off = self.u16(at).ok_or(ReadError)?;
        if off == 0 {
            return Err(ReadError);
        }
        T::read(self.split_off(off as usize).ok_or(ReadError)?)
    }
}

pub trait FontRead<'a>: Sized {
    fn read(data: FontData<'a>) -> Result<Self, ReadError>;
}

pub mod types {
    use super::AnyBytes;
    #[derive(Clone, Copy, Debug, PartialEq, Eq, PartialOrd, Ord)]
    pub struct GlyphId(u32);
    impl GlyphId {
        #[inline(always)]
        pub fn new(v: u32) -> Self {
            Self(v)
        }
        #[inline(always)]
        pub fn to_u32(self) -> u32 {
            self.0
        }
    }
    #[derive(Clone, Copy, Debug, PartialEq, Eq, PartialOrd, Ord)]
    pub struct GlyphId16(u16);
    impl GlyphId16 {
        #[inline(always)]
        pub fn to_u16(self) -> u16 {
            self.0
        }
    }
    impl TryFrom<GlyphId> for GlyphId16 {
        type Error = ();
        #[inline(always)]
        fn try_from(g: GlyphId) -> Result<Self, ()> {
            u16::try_from(g.0).map(Self).map_err(|_| ())
        }
    }
    impl From<GlyphId16> for u32 {
        fn from(g: GlyphId16) -> u32 {
            g.0.into()
        }
    }
    impl From<GlyphId16> for GlyphId {
        fn from(g: GlyphId16) -> GlyphId {
            GlyphId(g.0.into())
        }
    }
    #[derive(Clone, Copy, Debug, PartialEq, Eq, PartialOrd, Ord)]
    pub struct Uint24(u32);
    impl Uint24 {
        pub const MAX: Self = Self(0xFF_FFFF);
        pub fn to_u32(self) -> u32 {
            self.0
        }
    }
    #[derive(Clone, Copy, Debug, PartialEq, Eq, PartialOrd, Ord)]
    pub struct GlyphId24(u32);
    impl GlyphId24 {
        pub fn checked_new(v: u32) -> Option<Self> {
            (v <= 0xFF_FFFF).then_some(Self(v))
        }
        pub fn to_u32(self) -> u32 {
            self.0
        }
    }

    pub trait Big: Copy {
        type Raw: Copy + PartialEq + Eq;
        fn of(raw: Self::Raw) -> Self;
        fn raw(self) -> Self::Raw;
    }
    macro_rules! big {
        ($t:ty, $n:expr, $of:expr, $raw:expr) => {
            impl Big for $t {
                type Raw = [u8; $n];
                #[inline(always)]
                fn of(raw: [u8; $n]) -> Self {
                    $of(raw)
                }
                #[inline(always)]
                fn raw(self) -> [u8; $n] {
                    $raw(self)
                }
            }
        };
    }
    big!(u16, 2, u16::from_be_bytes, u16::to_be_bytes);
    big!(i16, 2, i16::from_be_bytes, i16::to_be_bytes);
    big!(u32, 4, u32::from_be_bytes, u32::to_be_bytes);
    big!(GlyphId16, 2, |b| GlyphId16(u16::from_be_bytes(b)), |g: GlyphId16| g.0.to_be_bytes());
    big!(Uint24, 3, |b: [u8; 3]| Uint24(u32::from_be_bytes([0, b[0], b[1], b[2]])), |g: Uint24| {
        let b = g.0.to_be_bytes();
        [b[1], b[2], b[3]]
    });
    big!(GlyphId24, 3, |b: [u8; 3]| GlyphId24(u32::from_be_bytes([0, b[0], b[1], b[2]])), |g: GlyphId24| {
        let b = g.0.to_be_bytes();
        [b[1], b[2], b[3]]
    });

    #[repr(transparent)]
    #[derive(Clone, Copy, PartialEq, Eq)]
    pub struct BigEndian<T: Big>(T::Raw);
    unsafe impl<T: Big> AnyBytes for BigEndian<T> {}
    impl<T: Big> BigEndian<T> {
        #[inline(always)]
        pub fn get(&self) -> T {
            T::of(self.0)
        }
    }
    impl<T: Big> From<T> for BigEndian<T> {
        #[inline(always)]
        fn from(v: T) -> Self {
            Self(v.raw())
        }
    }
    impl<T: Big + PartialOrd> PartialOrd for BigEndian<T> {
        #[inline(always)]
        fn partial_cmp(&self, o: &Self) -> Option<core::cmp::Ordering> {
            self.get().partial_cmp(&o.get())
        }
    }
    impl<T: Big + Ord> Ord for BigEndian<T> {
        #[inline(always)]
        fn cmp(&self, o: &Self) -> core::cmp::Ordering {
            self.get().cmp(&o.get())
        }
    }
}

pub mod tables {
    pub mod variations {
        pub struct DeltaSetIndex {
            pub outer: u16,
            pub inner: u16,
        }
        /// Never made: there is no variation store.
        pub enum ItemVariationStore {}
        #[derive(Default)]
        pub struct Delta;
        impl Delta {
            pub fn to_f64(self) -> f64 {
                0.0
            }
        }
        impl ItemVariationStore {
            pub fn compute_delta(&self, _: DeltaSetIndex, _: &[i16]) -> Result<Delta, ()> {
                match *self {}
            }
        }
    }
    pub mod gpos;
    pub mod layout;
}
