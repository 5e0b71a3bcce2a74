//! Slots, read from the bytes of a line and written to them.
use core::fmt;

#[cfg(feature = "alloc")]
use alloc::{vec, vec::Vec};

/// What the slots of a line hold. A line doesn't show it (168 bytes may be seven slots of 24 or six of 28), so every
/// call but a move is told.
#[derive(Clone, Copy, Debug, PartialEq, Eq, Hash)]
pub enum Form {
    /// Slots of 24 bytes.
    Plain,
    /// Slots of 28 bytes, the last four being a cluster.
    Clustered,
}

impl Form {
    /// Bytes of a slot: 24 or 28.
    pub const fn size(self) -> usize {
        match self {
            Self::Plain => 24,
            Self::Clustered => 28,
        }
    }
}

/// One glyph of a line: 24 or 28 bytes, numbers big-endian, in the order of these fields.
///
/// Before [`start`](crate::start) you set the glyph, its flags and its advances; its ligature id and component, where a
/// substitution made a ligature or several glyphs of one; and in a [`Form::Clustered`] line its cluster. The other
/// fields are 0, as by default; but in vertical text the offsets are minus the glyph's vertical origin, so that a mark
/// goes by its base's origin.
#[derive(Clone, Copy, Debug, Default, PartialEq, Eq, Hash)]
pub struct Slot {
    /// The glyph's number in the font.
    pub glyph: u16,
    /// 0 to 7: by it a mark knows its ligature, and whether it may go on an earlier mark. Where a substitution makes a
    /// ligature, the ligature and the marks that stood between its components get the same id, another than the
    /// ligature before (1 to 7 in turn). Where a ligature becomes part of a larger one, its marks get the new id. A
    /// ligature of marks alone keeps that of its first mark, one of a letter and its marks that of the letter, and
    /// glyphs made of one keep that of the one. All others have 0, a mark behind the last component too.
    pub ligature_id: u8,
    /// 0 to 15. A ligature itself has 0, and a mark with its id the number of the component before it, from 1, counted
    /// on where the ligature becomes part of a larger one. A ligature of marks alone keeps that of its first mark, one
    /// of a letter and its marks that of the letter. Of several glyphs that a substitution made of one with id 0, each
    /// has its place among them, from 0, modulo 16; of one with another id, each keeps its component. All others have
    /// 0.
    pub component: u8,
    /// [`Slot::SEEN`], [`Slot::MARK`], [`Slot::MULTIPLIED`]; the other bits are 0.
    pub flags: u8,
    /// How the glyph is attached: 0, [`Slot::ATTACH_MARK`] or [`Slot::ATTACH_CURSIVE`]; any byte is allowed. Calls
    /// write it.
    pub attach_type: u8,
    /// 0 is "not attached", else the parent is this slot's number plus chain. Calls write it; once the line is finished
    /// it is 0.
    pub chain: i16,
    /// How far the glyph moves the pen to the right, in units of which [`Scale::em_size`](crate::Scale::em_size) make
    /// one em, as all advances and offsets. No call sets the advance of a mark or of a default ignorable to 0.
    pub x_advance: i32,
    /// How far the glyph moves the pen upward. In vertical text it is negative, as the pen goes down, and the x advance
    /// is 0.
    pub y_advance: i32,
    /// From the pen to where the glyph is drawn, to the right.
    pub x_offset: i32,
    /// From the pen to where the glyph is drawn, upward.
    pub y_offset: i32,
    /// Which letter the glyph came from, in a [`Form::Clustered`] line; `None` in a [`Form::Plain`] one. Any number:
    /// say, the index in the text of the letter's first character. A letter and its marks commonly share one, and so do
    /// a ligature and its marks. No call but the moves looks at it or writes it.
    pub cluster: Option<u32>,
}

/// The error where slots and their bytes don't fit: the bytes are too few or too many for the slots, which take 24 each
/// without a cluster and 28 with one; or a slot is of another form than its line, so that its cluster would be lost or
/// made up.
#[derive(Clone, Copy, Debug, PartialEq, Eq, Hash)]
pub struct WrongForm;

impl fmt::Display for WrongForm {
    fn fmt(&self, f: &mut fmt::Formatter<'_>) -> fmt::Result {
        f.write_str("the bytes are too few or too many, or a slot is of another form: 24 bytes, or 28 with a cluster")
    }
}

impl core::error::Error for WrongForm {}

/// Takes the first bytes off.
fn take<const N: usize>(bytes: &mut &[u8]) -> Result<[u8; N], WrongForm> {
    let (first, rest) = bytes.split_first_chunk().ok_or(WrongForm)?;
    *bytes = rest;
    Ok(*first)
}

impl Slot {
    /// A bit of [`Slot::flags`]: the lookup sees the glyph. Where it looks for another glyph than the one at hand, it
    /// takes the nearest that is seen. [`lookup`](crate::lookup) goes by it for all types but 1; of the single calls
    /// only [`mark_base`](crate::mark_base) and [`mark_ligature`](crate::mark_ligature) look at it. Before each lookup
    /// clear it on default ignorables (ZWNJ, CGJ, SHY and all others that Unicode calls so, unless a substitution made
    /// another glyph of one), and also
    ///
    /// - for types 2 and 3 on glyphs that the lookup's flag skips;
    /// - for types 4 and 5 on marks, whatever the flag, and on glyphs outside the lookup's feature;
    /// - for type 6 on marks that the flag leaves out, by class or by set.
    ///
    /// Set it on all others.
    ///
    /// ZWJ is a default ignorable too, but in lookups of the features mark and mkmk HarfBuzz leaves it seen: a mark
    /// behind a ZWJ stays where it is.
    pub const SEEN: u8 = 1;
    /// A bit of [`Slot::flags`]: the glyph is a mark, class 3 of GDEF. It doesn't hide the glyph from the search for a
    /// base: a clear [`Slot::SEEN`] does. [`mark_mark`](crate::mark_mark) puts a mark on no glyph without it.
    pub const MARK: u8 = 2;
    /// A bit of [`Slot::flags`]: the glyph is one of several that a substitution made of one. A mark behind them goes
    /// to the first of them, unless the subtable covers another, or, for [`mark_base`](crate::mark_base), a slot stands
    /// between them that is a mark or isn't one of them.
    pub const MULTIPLIED: u8 = 4;
    /// A value of [`Slot::attach_type`]: a mark on its base or ligature, or on another mark.
    pub const ATTACH_MARK: u8 = 1;
    /// A value of [`Slot::attach_type`]: a glyph joined to its neighbour.
    pub const ATTACH_CURSIVE: u8 = 2;

    /// The form of the lines that hold such a slot.
    pub const fn form(self) -> Form {
        match self.cluster {
            None => Form::Plain,
            Some(_) => Form::Clustered,
        }
    }

    /// Writes the slot to its bytes in a line, which must be as many as its form has.
    ///
    /// # Errors
    ///
    /// [`WrongForm`] where they are more or fewer: none has changed.
    pub fn write(self, bytes: &mut [u8]) -> Result<(), WrongForm> {
        if bytes.len() != self.form().size() {
            return Err(WrongForm);
        }
        let fields: [&[u8]; 8] = [
            &self.glyph.to_be_bytes(),
            &[self.ligature_id, self.component, self.flags, self.attach_type],
            &self.chain.to_be_bytes(),
            &self.x_advance.to_be_bytes(),
            &self.y_advance.to_be_bytes(),
            &self.x_offset.to_be_bytes(),
            &self.y_offset.to_be_bytes(),
            // Without a cluster the bytes end before this.
            &self.cluster.unwrap_or(0).to_be_bytes(),
        ];
        for (byte, new) in bytes.iter_mut().zip(fields.into_iter().flatten()) {
            *byte = *new;
        }
        Ok(())
    }

    /// The slot with these bytes, with a cluster where they are 28.
    ///
    /// # Errors
    ///
    /// [`WrongForm`] where they are neither 24 nor 28.
    pub fn read(mut bytes: &[u8]) -> Result<Self, WrongForm> {
        let rest = &mut bytes;
        let slot = Self {
            glyph: u16::from_be_bytes(take(rest)?),
            ligature_id: u8::from_be_bytes(take(rest)?),
            component: u8::from_be_bytes(take(rest)?),
            flags: u8::from_be_bytes(take(rest)?),
            attach_type: u8::from_be_bytes(take(rest)?),
            chain: i16::from_be_bytes(take(rest)?),
            x_advance: i32::from_be_bytes(take(rest)?),
            y_advance: i32::from_be_bytes(take(rest)?),
            x_offset: i32::from_be_bytes(take(rest)?),
            y_offset: i32::from_be_bytes(take(rest)?),
            cluster: if rest.is_empty() { None } else { Some(u32::from_be_bytes(take(rest)?)) },
        };
        rest.is_empty().then_some(slot).ok_or(WrongForm)
    }
}

/// Writes a line of these slots, which must all be of this form, to `slots.len() * form.size()` bytes.
///
/// # Errors
///
/// [`WrongForm`] where the bytes are more or fewer, or a slot is of the other form: no byte has changed.
pub fn write_slots(line: &mut [u8], form: Form, slots: &[Slot]) -> Result<(), WrongForm> {
    // The product doesn't overflow, since a `Slot` takes more memory than its bytes in a line.
    if line.len() != slots.len() * form.size() || slots.iter().any(|slot| slot.form() != form) {
        return Err(WrongForm);
    }
    line.chunks_exact_mut(form.size()).zip(slots).try_for_each(|(bytes, slot)| slot.write(bytes))
}

/// The bytes of a line of these slots, which must all be of this form. With the feature `alloc`; without,
/// [`write_slots`] writes a line to bytes that you have.
///
/// # Errors
///
/// [`WrongForm`] where a slot is of the other form.
#[cfg(feature = "alloc")]
pub fn line_of(form: Form, slots: &[Slot]) -> Result<Vec<u8>, WrongForm> {
    let mut line = vec![0; slots.len() * form.size()];
    write_slots(&mut line, form, slots)?;
    Ok(line)
}

/// The whole slots of a line, from slot 0 up, or with `rev` from the last down; bytes after the last whole one are
/// passed over.
pub fn slots_of(line: &[u8], form: Form) -> impl DoubleEndedIterator<Item = Slot> + ExactSizeIterator + '_ {
    // Chunks are of the form's size, so each is a slot, and the default is never taken.
    line.chunks_exact(form.size()).map(|bytes| Slot::read(bytes).unwrap_or_default())
}

/// Slot `index` of a line, or `None` where the line has no such whole slot.
pub fn slot_at(line: &[u8], form: Form, index: usize) -> Option<Slot> {
    slots_of(line, form).nth(index)
}

/// Writes slot `index` of a line, and leaves the other slots as they are.
///
/// # Errors
///
/// [`WrongForm`] where the slot is not of this form, or the line has no such whole slot: no byte has changed.
pub fn put_slot(line: &mut [u8], form: Form, index: usize, slot: Slot) -> Result<(), WrongForm> {
    // Chunks are of the form's size, which `write` holds against the slot's.
    line.chunks_exact_mut(form.size()).nth(index).map_or(Err(WrongForm), |bytes| slot.write(bytes))
}
