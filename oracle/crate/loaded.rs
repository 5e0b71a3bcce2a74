//! Subtables as the crate keeps them once a font is loaded.
use crate::budget::Budget;
use crate::frame::*;
use crate::ot::apply::ApplyContext;
use crate::ot::lookup::coverage::Coverage;
use crate::ot::lookup::gpos as g;
use read_fonts::tables::gpos as rf;
use read_fonts::tables::layout::CoverageTable;
use read_fonts::{FontData, FontRead, ReadError};

/// The primary coverage, which the lookup asks before `apply`.
pub fn coverage(subtable: &[u8]) -> Coverage<'_> {
    let at = usize::from(be16(subtable, 2));
    let table = FontData::new(subtable).split_off(at).filter(|_| at != 0).ok_or(ReadError);
    Coverage::new(table.and_then(CoverageTable::read))
}

pub enum Loaded<'a> {
    Single1(g::SinglePos1<'a>),
    Single2(g::SinglePos2<'a>),
    Pair1(g::PairPos1<'a>),
    Pair2(g::PairPos2<'a>),
    Kern1(g::PairKern1<'a>),
    Kern2(g::PairKern2<'a>),
    Cursive(g::CursivePos1<'a>),
    MarkBase(g::MarkBasePos1<'a>),
    MarkLigature(g::MarkLigPos1<'a>),
    MarkMark(g::MarkMarkPos1<'a>),
}
use Loaded::*;

impl<'a> Loaded<'a> {
    /// None is a subtable that is dropped. With `kern` the crate's own types for kerning are tried first, as their `new`, which gives None for all else, suggests; the
    /// file that chooses is not in the text.
    pub fn new(kind: u8, subtable: &'a [u8], kern: bool) -> Option<Self> {
        let d = FontData::new(subtable);
        let budget = Budget::new(usize::MAX, usize::MAX);
        macro_rules! table {
            ($t:ty) => {
                &<$t>::read(d).ok().expect("checked")
            };
        }
        Some(match (kind, be16(subtable, 0)) {
            (SINGLE, 1) => Single1(g::SinglePos1::new(table!(rf::SinglePosFormat1))?),
            (SINGLE, 2) => Single2(g::SinglePos2::new(table!(rf::SinglePosFormat2))?),
            (PAIR, 1) => {
                let t = table!(rf::PairPosFormat1);
                let kerning = if kern { g::PairKern1::new(t, &budget).ok()? } else { None };
                match kerning {
                    Some(k) => Kern1(k),
                    None => Pair1(g::PairPos1::new(t, &budget).ok()?),
                }
            }
            (PAIR, 2) => {
                let pairs = g::ClassPairs::new(table!(rf::PairPosFormat2));
                let kerning = if kern { g::PairKern2::new(&pairs, false, &budget).ok()? } else { None };
                match kerning {
                    Some(k) => Kern2(k),
                    None if cfg!(crate_reading) => Pair2(g::PairPos2::new(&pairs, false, &budget).ok()??),
                    None => Pair2(g::oracle_pair_pos2(&pairs)),
                }
            }
            (CURSIVE, 1) => Cursive(g::CursivePos1::new(table!(rf::CursivePosFormat1))?),
            (MARK_BASE, 1) => MarkBase(g::MarkBasePos1::new(table!(rf::MarkBasePosFormat1))?),
            (MARK_LIGATURE, 1) => MarkLigature(g::MarkLigPos1::new(table!(rf::MarkLigPosFormat1))?),
            (MARK_MARK, 1) => MarkMark(g::MarkMarkPos1::new(table!(rf::MarkMarkPosFormat1))?),
            _ => unreachable!(),
        })
    }
    /// Applies to a glyph of this coverage index; None is a decline.
    #[inline(always)]
    pub fn apply(&self, ctx: &mut ApplyContext, index: u32) -> Option<()> {
        let second = &mut g::SecondGlyph::Unknown;
        match self {
            Single1(t) => t.apply(ctx, index),
            Single2(t) => t.apply(ctx, index),
            Pair1(t) => t.apply(ctx, index, second),
            Pair2(t) => t.apply(ctx, index, second),
            Kern1(t) => t.apply(ctx, index, second),
            Kern2(t) => t.apply(ctx, index, second),
            Cursive(t) => t.apply(ctx, index),
            MarkBase(t) => t.apply(ctx, index),
            MarkLigature(t) => t.apply(ctx, index),
            MarkMark(t) => t.apply(ctx, index),
        }
    }
}
