//! Glyph positioning (OpenType GPOS) on lines of glyph slots.
//!
//! A label, or each run of it that has one font, one script and one direction, is a *line*: up to 1,024 [`Slot`]s, as
//! bytes that you lend. Its [`Form`] says whether a slot has 24 bytes, or 28 with a *cluster*: which letter its glyph
//! came from. A call starts a line, runs one GPOS lookup over it, applies one subtable at one glyph, or finishes the
//! line; two more move a line to the other form. Every argument may have any value: what is out of range is a
//! [`Refusal`]. No call of the library allocates, and none panics.
//!
//! [`guide`] goes from shaped glyphs to a drawn label, in the words of the functions for C that this package wraps. The
//! package's `examples/label.rs` is the same label in Rust, to begin with or to copy from.
//!
//! # What is here, and what is not
//!
//! [`lookup`] runs a lookup of type 1 to 6 over a line. By the type's own call you apply one subtable at one glyph.
//!
//! | lookup type | call |
//! |---|---|
//! | 1, single adjustment | [`single`] |
//! | 2, pair adjustment | [`pair`] |
//! | 3, cursive attachment | [`cursive`] |
//! | 4, mark to base | [`mark_base`] |
//! | 5, mark to ligature | [`mark_ligature`] |
//! | 6, mark to mark | [`mark_mark`] |
//! | 7 and 8, contextual | none: labels whose lookups have these types come out incomplete |
//! | 9, extension | none: unwrap it, and apply the subtable to which it leads by that one's type |
//!
//! - Device tables and variation deltas are not applied.
//! - The advances of marks and of default ignorables are not set to 0. If your shaper does that, as most do, then after
//!   the last lookup and before [`finish`].
//! - There is one [`Scale`] for x and y, and it is never negative.
//! - Finding the font's lookups, and which glyphs a lookup's flag skips, is left to you.
//!
//! # The order of work
//!
//! 1. Write the slots, in reading order in every direction ([`write_slots`]), and [`start`] the line. [`Slot`] says
//!    what its fields hold.
//! 2. Take the lookups of all the features that you want together, each once, in the order of the font's lookup list,
//!    and run each over the whole line before the next.
//! 3. Before a lookup set [`Slot::SEEN`], which says which glyphs it sees where it looks for another than the one at
//!    hand: the other glyph of a pair, say, or a mark's base. The glyph at hand is tried whether it is seen or not: so
//!    hide those that the lookup's flag skips, and those outside its feature, as [`lookup`] says, and put them back
//!    after it. Then [`lookup`] runs it. On an error that [is the font's fault](RunError::is_font_error) pass over the
//!    lookup, or over what is left of it; on any other return the error, since the calling code has a mistake.
//! 4. After the last lookup set the advances of marks and of default ignorables to 0, if your shaper does so. Then
//!    [`finish`] the line, saying whether anything was attached.
//! 5. Draw: each glyph at pen plus offset, and then the pen moves by the advances. Go from slot 0 up, or from the last
//!    slot down where the direction is [backward](Direction::is_backward). Default ignorables aren't shown.
//!
//! A label of two glyphs, written from right to left, and a font with one lookup, which attaches marks to bases:
//!
//! ```
//! use gpos::{finish, lookup, places, slots_of, start, write_slots};
//! use gpos::{Direction, Form, Hazard, HazardKind, HazardRecord, Lookup, Scale, Slot, NESTING_LIMIT};
//!
//! const FORM: Form = Form::Plain;
//! const DIRECTION: Direction = Direction::RightToLeft;
//! const SCALE: Scale = Scale { em_size: 1000, units_per_em: 2000 };
//! const BASE: u16 = 36;
//! const MARK: u16 = 501;
//!
//! # fn main() -> Result<(), Box<dyn std::error::Error>> {
//! // MarkBasePos format 1, as in the font: a mark with anchor (40, 0) and a base with anchor (600, 1400).
//! let subtable: Vec<u8> = [
//!     1, 12, 18, 1, 24, 36, // the format, where the coverages are, one class, where the arrays are
//!     1, 1, MARK, // at 12: the marks
//!     1, 1, BASE, // at 18: the bases
//!     1, 0, 6, 1, 40, 0, // at 24: the mark's class, and its anchor
//!     1, 4, 1, 600, 1400, // at 36: the base's anchor
//! ]
//! .into_iter()
//! .flat_map(u16::to_be_bytes)
//! .collect();
//! // The flag skips no glyph. Of several subtables the bytes would lie end to end, with a length for each.
//! let marks = Lookup { lookup_type: 4, flag: 0, subtables: &subtable, lengths: &[subtable.len()] };
//!
//! let base = Slot { glyph: BASE, flags: Slot::SEEN, x_advance: 600, ..Slot::default() };
//! let mark = Slot { glyph: MARK, flags: Slot::MARK, ..Slot::default() };
//! let mut line = [0; 2 * FORM.size()];
//! write_slots(&mut line, FORM, &[base, mark])?;
//!
//! start(&mut line, FORM)?;
//! let mut list = [HazardRecord::default(); places(2, 1)]; // for two slots and one subtable
//! let run = lookup(&mut line, FORM, marks, DIRECTION, SCALE, &mut list)?;
//! finish(&mut line, FORM, DIRECTION, NESTING_LIMIT, run.attached)?;
//!
//! let mut drawn = Vec::new();
//! let (mut x, mut y) = (0, 0);
//! for slot in slots_of(&line, FORM).rev() {
//!     drawn.push((slot.glyph, x + slot.x_offset, y + slot.y_offset));
//!     x += slot.x_advance;
//!     y += slot.y_advance;
//! }
//! assert_eq!(drawn, [(MARK, 280, 700), (BASE, 0, 0)]);
//!
//! // The two depend on each other: who breaks lines breaks none between them.
//! let hazards: Vec<Hazard> = list[..run.hazards].iter().map(|record| record.hazard()).collect();
//! assert_eq!(hazards, [Hazard { kind: HazardKind::UnsafeToBreak, range: 0..2 }]);
//! # Ok(())
//! # }
//! ```
//!
//! The package's `examples/label.rs` has what is left out here: features, glyphs that are hidden from a lookup, seen
//! bits, advances that are set to 0, and what to do with a bad font.
//!
//! # A lookup by single calls
//!
//! A lookup that [`lookup`] doesn't run, say one with more than 8 subtables, is run by the calls of its type. It goes
//! from index 0 on. At a glyph that is in its feature and that its flag doesn't skip, try its subtables in order: the
//! first that applies ends the turn, and its `next` says where to go on. If none does, go on at the next slot. For a
//! pair or a cursive attachment you name the [`Neighbour`]: the nearest glyph that the lookup's flag doesn't skip and
//! that is no default ignorable, if it is in the lookup's feature; one outside the feature ends the search. For a mark
//! on a mark you name an earlier glyph, by a rule of its own ([`mark_mark`]). On a refusal that
//! [is the font's fault](Refusal::is_font_error) pass over that subtable.
//!
//! # Subtables
//!
//! Pass the bytes from the subtable's format field to the *end of the GPOS table*, since OpenType gives a subtable no
//! length, and subtables may share parts that lie behind them; but the first 65,536 where there are more, as a longer
//! slice is refused. [`subtable`] takes them from the table. For [`lookup`] copy those of the lookup's subtables to one
//! buffer, end to end, when the font is loaded.
//!
//! # Stack and time
//!
//! [`cursive`] takes 648 bytes of stack and 80 for each slot of an old chain, 82,568 for one through 1,024 slots;
//! [`finish`] takes up to 3,152, [`lookup`] took up to 1,432, for type 3 some 800 more than [`cursive`], and the others
//! up to 888, where they were measured. Every call reads all slots, and an applying one every coverage and class list
//! of its subtable, before it does anything: a call costs as much as they are long, even where it declines.
//! [`lookup`] does both once for the whole line.
//!
//! # Linking
//!
//! The work is done by `libgpos_c.a`, which is proved to end, to stay inside what it is lent, and to answer and write
//! exactly what its contracts say. This package is a thin safe wrapper of it, in Rust's own types, and not proved
//! itself. The archive is for x86-64 Linux, so a program or a test links only there; `cargo check` and `cargo doc` work
//! anywhere. It is looked for in the repository's target/staticlib, where `tools/build` writes it, or in the folder
//! that the variable `GPOS_LIB_DIR` names: an absolute one, since a relative one counts from this package and
//! not from yours.
//!
//! The package needs no standard library. The feature `alloc`, on by default, holds `line_of` alone, which makes the
//! bytes of a line as a `Vec`.
#![no_std]
#![warn(missing_docs)]

#[cfg(feature = "alloc")]
extern crate alloc;

mod answer;
mod ffi;
mod run;
mod slot;

#[doc = include_str!("../../docs/GUIDE.md")]
pub mod guide {}

pub use answer::{Hazard, HazardKind, HazardRecord, Outcome, Refusal};
pub use run::{lookup, places, Lookup, Run, RunError, MOST_SUBTABLES};
#[cfg(feature = "alloc")]
pub use slot::line_of;
pub use slot::{put_slot, slot_at, slots_of, write_slots, Form, Slot, WrongForm};

use answer::{done, outcome};

/// The nesting limit that shapers use, and the highest that [`finish`] takes.
pub const NESTING_LIMIT: u32 = 64;
/// The most slots of a line.
pub const MOST_SLOTS: usize = 1024;
/// The most bytes of a subtable.
pub const MOST_SUBTABLE: usize = 65_536;

/// The direction of text. Slots are in reading order in every one; it says how the pen goes over them.
#[derive(Clone, Copy, Debug, PartialEq, Eq, Hash)]
#[repr(u32)]
pub enum Direction {
    /// Horizontal, drawn from slot 0 up.
    LeftToRight = 0,
    /// Horizontal, drawn from the last slot down.
    RightToLeft = 1,
    /// Vertical, drawn from slot 0 up.
    TopToBottom = 2,
    /// Vertical, drawn from the last slot down.
    BottomToTop = 3,
}

impl Direction {
    /// Whether slots are drawn from the last one down, and not from slot 0 up.
    pub const fn is_backward(self) -> bool {
        matches!(self, Self::RightToLeft | Self::BottomToTop)
    }
}

/// From the font's design units to those of the line, alike for x and y.
///
/// A design value `v` becomes `v * em_size / units_per_em`, rounded to the nearest whole number, a tie away from zero:
/// at half size 3 becomes 2, and -3 becomes -2. (Up to version 0.3.0 a tie went up: -3 became -1.) Values of records
/// and coordinates of cursive anchors are scaled one by one; of the anchors of a mark and of what it goes on, the
/// difference is.
#[derive(Clone, Copy, Debug, PartialEq, Eq, Hash)]
pub struct Scale {
    /// How many units of the line's advances and offsets make one em, 1 to 32,768.
    pub em_size: u32,
    /// How many design units make one em, 16 to 16,384: unitsPerEm in the font's head table. A bad font may have
    /// another number there: check it when the font is loaded.
    pub units_per_em: u32,
}

/// Starts a line: sets every chain and attach type to 0, and changes nothing else.
///
/// Where that is forgotten, an attachment that the bytes still hold from an older label pulls a mark onto another
/// letter. Offsets and advances stay as they are, so a line is filled anew for each label: with offsets of 0, and the
/// advances of its glyphs.
///
/// # Errors
///
/// [`Refusal::Line`] (1) or [`Refusal::Slot`] (4).
pub fn start(line: &mut [u8], form: Form) -> Result<(), Refusal> {
    // SAFETY: the library reads and writes these bytes alone, and keeps no pointer.
    done(unsafe { ffi::gpos_start(line.as_mut_ptr(), line.len(), form.size()) })
}

/// Finishes a line, once, after its last lookup: turns attachments into offsets, parents first, and sets every chain to
/// 0.
///
/// A mark moves with its base, a cursive glyph across the line with its neighbour. At most `nesting_limit` parents, 0
/// to 64, are followed from a slot: pass [`NESTING_LIMIT`].
///
/// `attachments` says whether any call attached. `true` is always right: it changes nothing where no slot is attached.
/// `false` saves time where no call attached, and leaves the line as it is, chains too.
///
/// # Errors
///
/// [`Refusal::Line`] (1), [`Refusal::Range`] (3) or [`Refusal::Slot`] (4).
pub fn finish(
    line: &mut [u8],
    form: Form,
    direction: Direction,
    nesting_limit: u32,
    attachments: bool,
) -> Result<(), Refusal> {
    let (len, attachments) = (line.len(), attachments.into());
    // SAFETY: as in `start`.
    done(unsafe { ffi::gpos_finish(line.as_mut_ptr(), len, form.size(), direction as u32, nesting_limit, attachments) })
}

/// Moves a [`Form::Plain`] line to a [`Form::Clustered`] target: the cluster of each slot is its number, from 0. The
/// target must have the length of the moved line, `line.len() / 24 * 28`.
///
/// # Errors
///
/// [`Refusal::Line`] (1), [`Refusal::Slot`] (4) or [`Refusal::Move`] (10). The target stays as it was.
pub fn to_clusters(line: &[u8], target: &mut [u8]) -> Result<(), Refusal> {
    // SAFETY: as in `start`; the line is only read, and can't overlap a target that is lent to write.
    done(unsafe { ffi::gpos_to_clusters(line.as_ptr(), line.len(), target.as_mut_ptr(), target.len()) })
}

/// Moves a [`Form::Clustered`] line back to a [`Form::Plain`] target, if each cluster is its slot's number: any other
/// would be lost. The target must have the length of the moved line, `line.len() / 28 * 24`.
///
/// # Errors
///
/// [`Refusal::Line`] (1), [`Refusal::Slot`] (4) or [`Refusal::Move`] (10). The target stays as it was.
pub fn from_clusters(line: &[u8], target: &mut [u8]) -> Result<(), Refusal> {
    // SAFETY: as in `to_clusters`.
    done(unsafe { ffi::gpos_from_clusters(line.as_ptr(), line.len(), target.as_mut_ptr(), target.len()) })
}

/// Where and how a subtable is applied: the arguments that all applying calls share.
#[derive(Clone, Copy, Debug, PartialEq, Eq, Hash)]
pub struct At {
    /// The direction of the line.
    pub direction: Direction,
    /// From design units to the line's.
    pub scale: Scale,
    /// The slot at which to apply: for a mark attachment that of the mark.
    pub index: usize,
}

/// The other glyph of a pair, of a cursive attachment or of a mark on a mark: the nearest glyph that the lookup's flag
/// doesn't skip and that is no default ignorable, if it is in the lookup's feature. One outside the feature ends the
/// search, and there is none then. (For a mark on a mark the flag skips less: see [`mark_mark`].)
#[derive(Clone, Copy, Debug, PartialEq, Eq, Hash)]
pub enum Neighbour {
    /// It is in this slot: after the index for a pair, before it for a cursive attachment or a mark on a mark.
    Named(usize),
    /// There is none, and this is how far was looked, at most the slot count. Only the hazard of the answer depends on
    /// it: if you ignore hazards, pass the slot count for a pair, and 0 for the two others.
    ///
    /// Exactly, it is for a pair one past the last slot that was looked at. For the two others it is 0; but where a
    /// glyph outside the feature, at a slot i above 0, ended the search, it is i - 1.
    Missing(usize),
}

impl Neighbour {
    fn numbers(self) -> (u32, usize) {
        match self {
            Self::Named(slot) => (0, slot),
            Self::Missing(bound) => (1, bound),
        }
    }
}

/// A bit of a lookup's flag, the only one that a call looks at: it turns a [`cursive`] attachment round, so that the
/// earlier glyph hangs on the later one. It has nothing to do with the direction of the text.
pub const LOOKUP_RIGHT_TO_LEFT: u16 = 1;
/// A bit of a lookup's flag: it skips bases, class 1 of GDEF. No call looks at it, nor at those below. They are yours
/// to go by, where you set [`Slot::SEEN`] and hide glyphs before a [`lookup`]; or, with single calls, where you choose
/// the glyphs at which the lookup is applied and where you look for a [`Neighbour`] (for [`mark_mark`] only the class
/// and the set of marks count there).
pub const LOOKUP_IGNORE_BASES: u16 = 2;
/// A bit of a lookup's flag, for you to go by: it skips ligatures, class 2 of GDEF.
pub const LOOKUP_IGNORE_LIGATURES: u16 = 4;
/// A bit of a lookup's flag, for you to go by: it skips marks, class 3 of GDEF.
pub const LOOKUP_IGNORE_MARKS: u16 = 8;
/// A bit of a lookup's flag, for you to go by: it skips the marks that are not in the mark glyph set of GDEF that the
/// lookup names.
pub const LOOKUP_USE_MARK_FILTERING_SET: u16 = 16;
/// The byte of a lookup's flag, for you to go by, that names a mark attachment class of GDEF. Unless it is 0, the
/// lookup skips the marks of all other classes.
pub const LOOKUP_MARK_ATTACHMENT_CLASS: u16 = 0xFF00;

/// The bytes to pass of the subtable that begins at this offset of the font's GPOS table: from there to the end of the
/// table, at most [`MOST_SUBTABLE`]. Past the end there are none, and a call that is passed none refuses them, with
/// [`Refusal::Subtable`].
pub fn subtable(gpos: &[u8], offset: usize) -> &[u8] {
    let rest = gpos.get(offset..).unwrap_or_default();
    rest.get(..MOST_SUBTABLE).unwrap_or(rest)
}

/// Calls the library with the arguments that all applying calls share, and the call's own.
macro_rules! apply {
    ($name:ident, $line:ident, $form:ident, $subtable:ident, $at:ident $(, $own:expr)*) => {
        // SAFETY: as in `start`; the subtable is only read, and can't overlap a line that is lent to write.
        outcome(unsafe {
            ffi::$name(
                $line.as_mut_ptr(), $line.len(), $form.size(), $subtable.as_ptr(), $subtable.len(),
                $at.direction as u32, $at.scale.em_size, $at.scale.units_per_em, $at.index $(, $own)*
            )
        })
    };
}

/// Single adjustment (lookup type 1): adds a value record to the glyph.
///
/// The placements are added to the offsets in every direction. In horizontal text the x advance is added, and a
/// record's y advance isn't applied; in vertical text the x advance isn't, and the y advance, which counts downward, is
/// subtracted. Sums stop at the ends of 32 bits. A record that the subtable's end cuts is applied and adds nothing.
///
/// Declined where the glyph is uncovered or has no record, without a hazard.
///
/// # Errors
///
/// [`Refusal::Line`] (1), [`Refusal::Range`] (3), [`Refusal::Slot`] (4), [`Refusal::Index`] (5) or
/// [`Refusal::Subtable`] (6).
pub fn single(line: &mut [u8], form: Form, subtable: &[u8], at: At) -> Result<Outcome, Refusal> {
    apply!(gpos_single, line, form, subtable, at)
}

/// Pair adjustment (lookup type 2): adds value records to the glyph and to the second glyph, as [`single`] does.
///
/// You name the second glyph: search from the index up for the nearest glyph that the lookup's flag doesn't skip and
/// that is no default ignorable, and take it if it is in the lookup's feature ([`Neighbour`]).
///
/// Declined where the glyph is uncovered or has no pair set, or the set is cut where the pair was looked for, without a
/// hazard; where there is no second glyph or the pair has no record, with [`HazardKind::UnsafeToConcat`]. A pair whose
/// values are zero is applied; so is one of format 1 whose records the subtable's end cuts, and a cut record adds
/// nothing.
///
/// # Errors
///
/// [`Refusal::Line`] (1), [`Refusal::Range`] (3), [`Refusal::Slot`] (4), [`Refusal::Index`] (5) or
/// [`Refusal::Subtable`] (6).
pub fn pair(line: &mut [u8], form: Form, subtable: &[u8], at: At, second: Neighbour) -> Result<Outcome, Refusal> {
    let (missing, place) = second.numbers();
    apply!(gpos_pair, line, form, subtable, at, missing, place)
}

/// Cursive attachment (lookup type 3): joins the glyph's entry anchor to the exit anchor of the previous glyph.
///
/// You name the previous glyph: search from the index down, as for the second glyph of a [`pair`]. Of the lookup's flag
/// only [`LOOKUP_RIGHT_TO_LEFT`] is looked at.
///
/// Declined where either glyph is uncovered or this one has no entry anchor, without a hazard; where there is no
/// previous glyph or it has no exit anchor, with [`HazardKind::UnsafeToConcat`].
///
/// # Errors
///
/// [`Refusal::Line`] (1), [`Refusal::Range`] (3), [`Refusal::Slot`] (4), [`Refusal::Index`] (5) or
/// [`Refusal::Subtable`] (6).
pub fn cursive(
    line: &mut [u8],
    form: Form,
    subtable: &[u8],
    at: At,
    previous: Neighbour,
    lookup_flag: u16,
) -> Result<Outcome, Refusal> {
    let (missing, place) = previous.numbers();
    apply!(gpos_cursive, line, form, subtable, at, missing, place, lookup_flag.into())
}

/// Mark-to-base attachment (lookup type 4): attaches the mark to the nearest base before it that is [seen](Slot::SEEN).
///
/// Declined where the mark is uncovered, there is no base coverage, or an array or an anchor is missing, without a
/// hazard; where no base is found or it is uncovered, with [`HazardKind::UnsafeToConcat`].
///
/// # Errors
///
/// [`Refusal::Line`] (1), [`Refusal::Range`] (3), [`Refusal::Slot`] (4), [`Refusal::Index`] (5), [`Refusal::Subtable`]
/// (6) or [`Refusal::Endless`] (7).
pub fn mark_base(line: &mut [u8], form: Form, subtable: &[u8], at: At) -> Result<Outcome, Refusal> {
    apply!(gpos_mark_base, line, form, subtable, at)
}

/// Mark-to-ligature attachment (lookup type 5): attaches the mark to a component of the nearest ligature before it that
/// is [seen](Slot::SEEN).
///
/// A mark with the ligature's [id](Slot::ligature_id), not 0, and a [component](Slot::component) above 0 goes to that
/// component, at most the last; any other mark goes to the last.
///
/// Declined as [`mark_base`] is, and with [`HazardKind::UnsafeToConcat`] where the ligature has no components.
///
/// # Errors
///
/// [`Refusal::Line`] (1), [`Refusal::Range`] (3), [`Refusal::Slot`] (4), [`Refusal::Index`] (5), [`Refusal::Subtable`]
/// (6) or [`Refusal::Endless`] (7).
pub fn mark_ligature(line: &mut [u8], form: Form, subtable: &[u8], at: At) -> Result<Outcome, Refusal> {
    apply!(gpos_mark_ligature, line, form, subtable, at)
}

/// Mark-to-mark attachment (lookup type 6): attaches the mark to an earlier mark, say a tone mark to a vowel mark.
///
/// You name the earlier glyph: search from the index down, and pass over default ignorables and marks that the lookup's
/// flag leaves out, by class or by set ([`LOOKUP_MARK_ATTACHMENT_CLASS`], [`LOOKUP_USE_MARK_FILTERING_SET`]). Nothing
/// else is passed over, whatever the flag ignores: take the first that is left, mark or not, if it is in the lookup's
/// feature ([`Neighbour`]). [`Slot::SEEN`] isn't looked at; what it says of ZWJ is so here too.
///
/// The two go together where their [ids](Slot::ligature_id) are equal, and either are 0 or the
/// [components](Slot::component) are equal too; and where the ids differ, if one of the two is a mark that is a
/// ligature of glyphs not all marks: its id isn't 0 and its component is (one of marks alone has no id of its own).
/// Applied, the mark has both offsets anew and hangs on the earlier mark alone, whatever it hung on before.
///
/// Declined where the mark is uncovered, without a hazard; where there is no earlier glyph, it isn't a
/// [mark](Slot::MARK) or the two don't go together, with [`HazardKind::UnsafeToConcat`]; after that, where the earlier
/// mark is uncovered, or an array or an anchor is missing, without a hazard.
///
/// # Errors
///
/// [`Refusal::Line`] (1), [`Refusal::Range`] (3), [`Refusal::Slot`] (4), [`Refusal::Index`] (5), [`Refusal::Subtable`]
/// (6) or [`Refusal::Endless`] (7).
pub fn mark_mark(line: &mut [u8], form: Form, subtable: &[u8], at: At, earlier: Neighbour) -> Result<Outcome, Refusal> {
    let (missing, place) = earlier.numbers();
    apply!(gpos_mark_mark, line, form, subtable, at, missing, place)
}
