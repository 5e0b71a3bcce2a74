//! What calls answer: the library's numbers in Rust's own types.
use crate::ffi;
use core::fmt;
use core::ops::Range;

/// Why a call was refused. The lowest number that applies is given (but 8 goes before 6), and no byte of the line, of
/// the list, or of the target of a move, has changed.
#[derive(Clone, Copy, Debug, PartialEq, Eq, Hash)]
#[non_exhaustive]
pub enum Refusal {
    /// 1: the line's length is no multiple of its form's size, or above 1,024 slots; or the form is wrong (72 bytes are
    /// three slots of 24 bytes, and no slots of 28).
    Line,
    /// 2: the direction is above 3. This package can't ask for one.
    Direction,
    /// 3: the scale's `em_size` is not from 1 to 32,768, its `units_per_em` not from 16 to 16,384, or the nesting limit
    /// is above 64.
    Range,
    /// 4: some slot's ligature id, component or spare flag bits are out of range; or the form is wrong, so that other
    /// bytes are taken for these (168 bytes are whole slots of either form).
    Slot,
    /// 5: the index is not in the line, or the neighbour is not where it must be.
    Index,
    /// 6: the subtable is over 65,536 bytes, its fixed header is cut, its format is unknown, a value format is above
    /// 255, or one of its coverage or class lists is cut, unknown or out of order. The font is bad: pass over the
    /// subtable. Of a [lookup](crate::lookup), any of its subtables is so, or its type is not from 1 to 6.
    ///
    /// No more is checked. Other parts that are cut are as good as missing: the call declines, or is applied, and a cut
    /// value record adds nothing. A subtable of another lookup type is not always noticed.
    Subtable,
    /// 7: what a mark goes on, base, ligature or mark, hangs on a chain of cursive attachments that never ends. On a
    /// line that was started, the font's cursive lookups hang glyphs in a ring: pass over the subtable. If it wasn't,
    /// start it. (Of a lookup it is [`RunError::Stopped`](crate::RunError::Stopped).)
    Endless,
    /// 8: the subtables of a [lookup](crate::lookup) are none or more than 8, their lengths don't add up to their bytes,
    /// or the list has fewer than [`places`](crate::places).
    List,
    /// 10: the target of a move hasn't the length of the moved line; or, moving back, a cluster is not its slot's
    /// number and would be lost.
    Move,
    /// A number that this package doesn't know, from any call: the library is of another version. It is 0 where an
    /// answer was not even a refusal. What became of the line is not known either.
    Other(u32),
}

impl Refusal {
    const NAMED: [Self; 9] = [
        Self::Line,
        Self::Direction,
        Self::Range,
        Self::Slot,
        Self::Index,
        Self::Subtable,
        Self::Endless,
        Self::List,
        Self::Move,
    ];

    /// Its number, as the library gave it: 1 to 8 or 10, and any other for [`Refusal::Other`].
    pub const fn number(self) -> u32 {
        match self {
            Self::Line => 1,
            Self::Direction => 2,
            Self::Range => 3,
            Self::Slot => 4,
            Self::Index => 5,
            Self::Subtable => 6,
            Self::Endless => 7,
            Self::List => 8,
            Self::Move => 10,
            Self::Other(number) => number,
        }
    }

    /// Whether the font is at fault ([`Refusal::Subtable`], [`Refusal::Endless`]), so that a shaper passes over the
    /// subtable as if it had declined. Any other is a mistake in the calling code, or, for [`Refusal::Other`], in what
    /// was linked.
    ///
    /// Two may be the fault of either: [`Refusal::Endless`] comes also where a line wasn't started, and
    /// [`Refusal::Range`] where a font's unitsPerEm is out of range. Check that when the font is loaded.
    pub const fn is_font_error(self) -> bool {
        matches!(self, Self::Subtable | Self::Endless)
    }

    fn of(number: u32) -> Self {
        Self::NAMED.into_iter().find(|refusal| refusal.number() == number).unwrap_or(Self::Other(number))
    }
}

impl fmt::Display for Refusal {
    fn fmt(&self, f: &mut fmt::Formatter<'_>) -> fmt::Result {
        f.write_str(match self {
            Self::Line => "the line is no whole number of slots, or more than 1,024, or the form is wrong",
            Self::Direction => "the direction is unknown",
            Self::Range => "the scale or the nesting limit is out of range",
            Self::Slot => "a slot's ligature id, component or flags are out of range, or the form is wrong",
            Self::Index => "the index or the neighbour is out of place",
            Self::Subtable => "the subtable is too long, cut, of unknown format, or has a bad list",
            Self::Endless => "a chain of attachments never ends",
            Self::List => "not 1 to 8 subtables, wrong lengths, or too short a list",
            Self::Move => "the target's length is wrong, or a cluster would be lost",
            Self::Other(number) => {
                return write!(f, "the library answered {number}, unknown to this package: their versions differ")
            }
        })
    }
}

impl core::error::Error for Refusal {}

/// What must not be done inside a hazard's range without shaping anew.
#[derive(Clone, Copy, Debug, PartialEq, Eq, Hash)]
#[non_exhaustive]
pub enum HazardKind {
    /// To break the line there: each part, shaped by itself, would look different.
    UnsafeToBreak,
    /// To put texts together there that were shaped apart: shaped as one, they might look different.
    UnsafeToConcat,
    /// A number that this package doesn't know, as the library is of another version: take it for both.
    Other(u32),
}

/// Glyphs that depend on each other. You may ignore hazards unless you break lines or keep shaped pieces of text.
#[derive(Clone, Debug, PartialEq, Eq, Hash)]
pub struct Hazard {
    /// What is unsafe.
    pub kind: HazardKind,
    /// The slots, as the lookup names them: the range may reach past the line's end, and with a bound for a missing
    /// neighbour it may be empty or even have its end before its start. Don't slice by it unchecked.
    pub range: Range<usize>,
}

/// A hazard as the library writes it to a list that [`lookup`](crate::lookup) is lent: three numbers. By default they
/// are 0, and a place that no hazard was put into keeps what it held.
///
/// Between `kind` and `start` lie four bytes of padding, which may hold anything: don't take a list for plain bytes.
#[derive(Clone, Copy, Debug, Default, PartialEq, Eq, Hash)]
#[repr(C)]
pub struct HazardRecord {
    /// 1 is [`HazardKind::UnsafeToBreak`], 2 is [`HazardKind::UnsafeToConcat`].
    pub kind: u32,
    /// The first slot.
    pub start: usize,
    /// One past the last slot. It may be past the line's end, or before the start: see [`Hazard::range`].
    pub end: usize,
}

impl HazardRecord {
    /// The hazard with these numbers.
    pub const fn hazard(self) -> Hazard {
        let kind = match self.kind {
            ffi::UNSAFE_TO_BREAK => HazardKind::UnsafeToBreak,
            ffi::UNSAFE_TO_CONCAT => HazardKind::UnsafeToConcat,
            other => HazardKind::Other(other),
        };
        Hazard { kind, range: self.start..self.end }
    }
}

/// What an applying call answers where it isn't refused.
#[derive(Clone, Debug, PartialEq, Eq, Hash)]
pub enum Outcome {
    /// It was applied: the lookup's turn at this glyph is over.
    Applied {
        /// The index at which the lookup goes on: above the one at which it was applied, and at most the slot count.
        next: usize,
        /// No, one or two hazards, in the order in which they arise. There are two only where a pair subtable has
        /// values for the second glyph.
        hazards: [Option<Hazard>; 2],
        /// Whether a glyph was attached, so that [`finish`](crate::finish) has something to do.
        attached: bool,
    },
    /// It was not, and no byte of the line has changed: try the lookup's next subtable.
    Declined {
        /// Glyphs among which other text could have let it apply, if there are such: [`HazardKind::UnsafeToConcat`].
        /// Each call says when.
        hazard: Option<Hazard>,
    },
}

pub(crate) fn done(number: u32) -> Result<(), Refusal> {
    match number {
        0 => Ok(()),
        _ => Err(Refusal::of(number)),
    }
}

pub(crate) fn outcome(a: ffi::Answer) -> Result<Outcome, Refusal> {
    let [first, second] = a.hazard;
    let first = (a.hazard_count > 0).then(|| first.hazard());
    let second = (a.hazard_count > 1).then(|| second.hazard());
    match a.status {
        ffi::APPLIED => Ok(Outcome::Applied { next: a.next, hazards: [first, second], attached: a.attached != 0 }),
        ffi::DECLINED => Ok(Outcome::Declined { hazard: first }),
        ffi::REFUSED => Err(Refusal::of(a.refusal)),
        // Not `of`: without the status of a refusal the field is no refusal's number.
        _ => Err(Refusal::Other(0)),
    }
}

/// What a library of another version might answer, and this one doesn't.
#[cfg(test)]
mod tests {
    extern crate std;
    use super::*;
    use core::mem::offset_of;
    use std::string::ToString;

    const ANSWER: ffi::Answer = ffi::Answer {
        status: ffi::APPLIED,
        refusal: 0,
        attached: 0,
        hazard_count: 2,
        next: 1,
        hazard: [
            HazardRecord { kind: ffi::UNSAFE_TO_BREAK, start: 0, end: 1 },
            HazardRecord { kind: ffi::UNSAFE_TO_CONCAT, start: 0, end: 2 },
        ],
    };

    #[test]
    fn an_unknown_number_keeps_its_number_and_gets_no_name() {
        for number in [0, 9, 11, u32::MAX] {
            assert_eq!(Refusal::of(number), Refusal::Other(number));
            assert_eq!(Refusal::of(number).number(), number);
        }
        for number in [1, 2, 3, 4, 5, 6, 7, 8, 10] {
            assert!(!matches!(Refusal::of(number), Refusal::Other(_)));
            assert_eq!(Refusal::of(number).number(), number);
        }
    }

    #[test]
    fn an_unknown_number_is_said() {
        let text = done(11).unwrap_err().to_string();
        assert!(text.contains("11") && text.contains("version"), "{text}");
    }

    #[test]
    fn only_6_and_7_are_the_fonts_fault() {
        for number in 0..20 {
            assert_eq!(Refusal::of(number).is_font_error(), number == 6 || number == 7);
        }
    }

    #[test]
    fn an_unknown_status_is_no_outcome_and_no_named_refusal() {
        for status in [0, 4, u32::MAX] {
            assert_eq!(outcome(ffi::Answer { status, refusal: 5, ..ANSWER }), Err(Refusal::Other(0)));
        }
        assert_eq!(outcome(ffi::Answer { status: ffi::REFUSED, refusal: 0, ..ANSWER }), Err(Refusal::Other(0)));
        assert_eq!(outcome(ffi::Answer { status: ffi::REFUSED, refusal: 5, ..ANSWER }), Err(Refusal::Index));
    }

    #[test]
    fn a_hazard_is_there_only_below_the_count() {
        let first = Some(Hazard { kind: HazardKind::UnsafeToBreak, range: 0..1 });
        let second = Some(Hazard { kind: HazardKind::UnsafeToConcat, range: 0..2 });
        for (hazard_count, hazards) in [
            (0, [None, None]),
            (1, [first.clone(), None]),
            (2, [first.clone(), second.clone()]),
            (u32::MAX, [first, second]),
        ] {
            let applied = Outcome::Applied { next: 1, hazards: hazards.clone(), attached: false };
            assert_eq!(outcome(ffi::Answer { hazard_count, ..ANSWER }), Ok(applied));
            let [hazard, _] = hazards;
            let declined = ffi::Answer { status: ffi::DECLINED, hazard_count, ..ANSWER };
            assert_eq!(outcome(declined), Ok(Outcome::Declined { hazard }));
        }
    }

    #[test]
    fn an_unknown_kind_of_hazard_keeps_its_number_and_gets_no_name() {
        for kind in [0, 3, u32::MAX] {
            let unknown = Hazard { kind: HazardKind::Other(kind), range: 4..9 };
            assert_eq!(HazardRecord { kind, start: 4, end: 9 }.hazard(), unknown);
        }
    }

    #[test]
    #[cfg(target_pointer_width = "64")]
    fn answers_have_the_layout_of_the_header() {
        assert_eq!((size_of::<HazardRecord>(), size_of::<ffi::Answer>(), size_of::<ffi::Run>()), (24, 72, 24));
        assert_eq!((offset_of!(HazardRecord, start), offset_of!(HazardRecord, end)), (8, 16));
    }
}
