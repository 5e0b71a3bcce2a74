//! A whole lookup over a line, in one call.
use crate::answer::{done, HazardRecord, Refusal};
use crate::{ffi, Direction, Form, Scale};
use core::fmt;

/// The most subtables of a lookup that [`lookup`] runs.
pub const MOST_SUBTABLES: usize = 8;

/// How many places the list that [`lookup`] is lent must have: twice the slots of the line times the lookup's
/// subtables. A longer list does as well, so one may serve all lookups of a font.
pub const fn places(slots: usize, subtables: usize) -> usize {
    slots.saturating_mul(subtables).saturating_mul(2)
}

/// A lookup of the font, as [`lookup`] runs it.
#[derive(Clone, Copy, Debug, PartialEq, Eq, Hash)]
pub struct Lookup<'a> {
    /// OpenType's lookup type, 1 to 6. One of type 9 you unwrap: its subtables are those to which it leads, and its
    /// type is theirs.
    pub lookup_type: u16,
    /// The lookup's flag. Only [`LOOKUP_RIGHT_TO_LEFT`](crate::LOOKUP_RIGHT_TO_LEFT) is looked at, and for type 3
    /// alone: you hide the glyphs that the flag skips.
    pub flag: u16,
    /// The bytes of its subtables, 1 to [`MOST_SUBTABLES`] of them, end to end in their order. The bytes of each are
    /// those that [`subtable`](crate::subtable) takes from the table.
    pub subtables: &'a [u8],
    /// How many bytes each has: together as many as there are. Each subtable sees its own bytes only.
    pub lengths: &'a [usize],
}

/// What a lookup did that came to the line's end.
#[derive(Clone, Copy, Debug, PartialEq, Eq, Hash)]
pub struct Run {
    /// How many hazards were put into the list, from its first place on.
    pub hazards: usize,
    /// Whether a glyph was attached, so that [`finish`](crate::finish) has something to do.
    pub attached: bool,
}

/// Why a lookup didn't come to the line's end.
#[derive(Clone, Copy, Debug, PartialEq, Eq, Hash)]
pub enum RunError {
    /// It didn't begin: line and list are untouched.
    Refused(Refusal),
    /// It stopped where a single call is refused with [`Refusal::Endless`] (7): what a mark goes on hangs on a ring of
    /// cursive attachments. Line and list are as the calls before left them.
    ///
    /// On a line that was started, the font is bad. Leave the rest of the lookup undone; or go on at `index` by the
    /// call of the lookup's type, and pass over the subtable that is refused. It isn't told whether a glyph was
    /// attached: [`finish`](crate::finish) the line as if one was. If the line wasn't started, don't draw it: start it.
    Stopped {
        /// The slot of the mark.
        index: usize,
        /// How many hazards were put into the list before, from its first place on.
        hazards: usize,
    },
}

impl RunError {
    /// Whether the font is at fault: a subtable is bad ([`Refusal::Subtable`]), or the lookup stopped. Any other is a
    /// mistake in the calling code, as [`Refusal::is_font_error`] says.
    pub const fn is_font_error(self) -> bool {
        match self {
            Self::Refused(refusal) => refusal.is_font_error(),
            Self::Stopped { .. } => true,
        }
    }
}

impl fmt::Display for RunError {
    fn fmt(&self, f: &mut fmt::Formatter<'_>) -> fmt::Result {
        match self {
            Self::Refused(refusal) => refusal.fmt(f),
            Self::Stopped { index, .. } => write!(f, "stopped at slot {index}: {}", Refusal::Endless),
        }
    }
}

impl core::error::Error for RunError {}

fn ran(run: ffi::Run) -> Result<Run, RunError> {
    match done(run.refusal) {
        Ok(()) => Ok(Run { hazards: run.count, attached: run.attached != 0 }),
        Err(Refusal::Endless) => Err(RunError::Stopped { index: run.index, hazards: run.count }),
        Err(refusal) => Err(RunError::Refused(refusal)),
    }
}

/// Runs a lookup over the line: at each slot, from slot 0 up, its subtables are tried in their order, and the first
/// that applies wins and says at which slot to go on. Where all decline, that is the next one.
///
/// It does what the single calls of its type do, made one after another ([`single`](crate::single),
/// [`pair`](crate::pair), [`cursive`](crate::cursive), [`mark_base`](crate::mark_base),
/// [`mark_ligature`](crate::mark_ligature), [`mark_mark`](crate::mark_mark)); but line and subtables are checked once.
///
/// # Which glyphs it takes
///
/// **Neighbours** go by [`Slot::SEEN`](crate::Slot::SEEN), which you set before each lookup: the second glyph of a pair
/// is the next seen slot; what a cursive glyph joins, and what may be an earlier mark, is the last seen slot before it;
/// and the search for a base or a ligature sees only what is seen.
///
/// **The slot at hand** is tried whether it is seen or not. So hide the glyphs that the lookup's flag skips, and those
/// outside its feature: while the lookup runs, their slots have the glyph 0xFFFF, which is in no font. Put the glyphs
/// back afterwards. But for types 4 and 5 a glyph that is seen keeps its own, since a mark may go on it.
///
/// A glyph outside the feature stays seen for types 2, 3 and 6, and so ends the search for a neighbour, as in HarfBuzz:
/// with the glyph 0xFFFF it is in no pair and joins nothing. (Where pairs go by classes it is of class 0: if the font
/// has values for that, or if you need the same hazards, make the single calls, which are told the neighbour.)
///
/// # Hazards
///
/// The hazards of every call, also of one that declined, are put into `list` in the order in which they arise; the
/// places behind them keep what they held. The list must have [`places`] for all that might come, even if you ignore
/// them.
///
/// # Errors
///
/// [`RunError::Refused`], and line and list are untouched. Of several refusals the first in this order is given:
/// [`Refusal::Line`] (1), [`Refusal::Range`] (3), [`Refusal::Slot`] (4), [`Refusal::List`] (8), [`Refusal::Subtable`]
/// (6). ([`Refusal::Direction`], 2, which comes after 1, can't be asked for.) The last is given where any subtable is
/// bad, even if it is never reached, or the lookup's type isn't 1 to 6. A run over an empty line, with an empty list,
/// checks the subtables and does nothing else: by it leave out the bad ones when the font is loaded. A lookup that has
/// more than [`MOST_SUBTABLES`] can't be run in parts: make the single calls yourself.
///
/// [`RunError::Stopped`], where a single call would be refused with [`Refusal::Endless`] (7): line and list are as the
/// calls before left them.
pub fn lookup(
    line: &mut [u8],
    form: Form,
    lookup: Lookup<'_>,
    direction: Direction,
    scale: Scale,
    list: &mut [HazardRecord],
) -> Result<Run, RunError> {
    let Lookup { lookup_type, flag, subtables, lengths } = lookup;
    // SAFETY: the library reads these bytes and numbers alone, writes those of line and list, which can't overlap the
    // others, and keeps no pointer. A record's padding may hold anything.
    ran(unsafe {
        ffi::gpos_lookup(
            line.as_mut_ptr(),
            line.len(),
            form.size(),
            lookup_type.into(),
            flag.into(),
            subtables.as_ptr(),
            subtables.len(),
            lengths.as_ptr(),
            lengths.len(),
            direction as u32,
            scale.em_size,
            scale.units_per_em,
            list.as_mut_ptr(),
            list.len(),
        )
    })
}

#[cfg(test)]
mod tests {
    extern crate std;
    use super::*;
    use std::string::ToString;

    const RUN: ffi::Run = ffi::Run { refusal: 0, attached: 0, index: 5, count: 3 };

    #[test]
    fn each_number_has_its_answer() {
        assert_eq!(ran(RUN), Ok(Run { hazards: 3, attached: false }));
        assert_eq!(ran(ffi::Run { attached: 1, ..RUN }), Ok(Run { hazards: 3, attached: true }));
        assert_eq!(ran(ffi::Run { refusal: 7, ..RUN }), Err(RunError::Stopped { index: 5, hazards: 3 }));
        for number in [1, 2, 3, 4, 5, 6, 8, 9, 10, u32::MAX] {
            let refusal = done(number).unwrap_err();
            assert_eq!(ran(ffi::Run { refusal: number, ..RUN }), Err(RunError::Refused(refusal)));
        }
    }

    #[test]
    fn a_bad_subtable_and_a_stop_are_the_fonts_fault() {
        for number in 1..20 {
            let error = ran(ffi::Run { refusal: number, ..RUN }).unwrap_err();
            assert_eq!(error.is_font_error(), number == 6 || number == 7);
        }
    }

    #[test]
    fn an_error_says_what_its_refusal_says_and_a_stop_where_it_was() {
        assert_eq!(RunError::Refused(Refusal::List).to_string(), Refusal::List.to_string());
        let text = RunError::Stopped { index: 5, hazards: 3 }.to_string();
        assert!(text.contains("slot 5") && text.ends_with(&Refusal::Endless.to_string()), "{text}");
    }

    /// The safe call can't ask for such a direction. The line is whole, and all that comes after is wrong too.
    #[test]
    #[cfg(all(target_arch = "x86_64", target_os = "linux"))]
    fn a_direction_above_3_is_refused_behind_a_bad_line_and_before_all_else() {
        for (size, refusal) in [(23, Refusal::Line), (24, Refusal::Direction)] {
            let mut line = [255; 24];
            // SAFETY: the line has 24 bytes, and the other pointers lead to none.
            let run = unsafe {
                let (bytes, lens, list) = (core::ptr::null(), core::ptr::null(), core::ptr::null_mut());
                ffi::gpos_lookup(line.as_mut_ptr(), 24, size, 0, 0, bytes, 0, lens, 0, 4, 0, 0, list, 0)
            };
            assert_eq!((ran(run), line), (Err(RunError::Refused(refusal)), [255; 24]));
        }
    }
}
