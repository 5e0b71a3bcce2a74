//! A label from right to left, from shaped glyphs to drawn places: the Persian word for rooms, ghurfa-ha, with a vowel
//! mark, two kerned pairs and a ZWNJ. It is examples/label.c in Rust, and draws the same; docs/GUIDE.md, which is the
//! module `gpos::guide` too, explains the code.
use gpos::{finish, lookup, places, slots_of, start, write_slots};
use gpos::{Direction, Form, HazardRecord, RunError, Scale, Slot, WrongForm};
use gpos::{LOOKUP_IGNORE_BASES, LOOKUP_IGNORE_LIGATURES, LOOKUP_IGNORE_MARKS, NESTING_LIMIT};
use gpos::{LOOKUP_MARK_ATTACHMENT_CLASS, LOOKUP_USE_MARK_FILTERING_SET};
use std::error::Error;

// Glyph numbers of a font that is made up here.
const ZWNJ: u16 = 3;
const GHAIN: u16 = 10;
const REH: u16 = 11;
const FEH: u16 = 12;
const HEH_FINAL: u16 = 13;
const HEH_INITIAL: u16 = 14;
const ALEF: u16 = 15;
const DAMMA: u16 = 50;

/// What the label is set in: 1000 units of the font make one em, and 500 of the panel's.
const SCALE: Scale = Scale { em_size: 500, units_per_em: 1000 };
const DIRECTION: Direction = Direction::RightToLeft;

// ---- What the shaper gives: glyphs in reading order, after substitution

// Classes of GDEF.
const BASE: u16 = 1;
const LIGATURE: u16 = 2;
const MARK: u16 = 3;

// Features, a bit each.
const KERN: u32 = 1;
const MARKS: u32 = 2;

struct Glyph {
    name: &'static str,
    glyph: u16,
    /// In units of the font.
    advance: i32,
    /// 0 if GDEF has none.
    class: u16,
    /// A default ignorable that no substitution has replaced.
    ignorable: bool,
    /// Those that are on at this glyph.
    features: u32,
    /// GDEF's class of marks, 0 if none.
    mark_class: u16,
    /// GDEF's sets of marks that have it, a bit each.
    mark_sets: u32,
}

const fn letter(name: &'static str, glyph: u16, advance: i32) -> Glyph {
    let (ignorable, features) = (false, KERN | MARKS);
    Glyph { name, glyph, advance, class: BASE, ignorable, features, mark_class: 0, mark_sets: 0 }
}

const COUNT: usize = 8;
static GLYPHS: [Glyph; COUNT] = [
    letter("ghain", GHAIN, 600),
    Glyph { class: MARK, mark_class: 1, mark_sets: 1 << 0, ..letter("damma", DAMMA, 200) },
    letter("reh", REH, 400),
    letter("feh", FEH, 800),
    letter("heh", HEH_FINAL, 500),
    Glyph { ignorable: true, ..letter("ZWNJ", ZWNJ, 120) },
    letter("heh", HEH_INITIAL, 560),
    letter("alef", ALEF, 240),
];
const FORM: Form = Form::Plain;

// ---- What the font has: lookups, in the order of its lookup list

/// PairPos format 1. Right to left a pair is moved together by the first glyph's x placement and x advance alike, so
/// the value formats are 5 and 0.
#[rustfmt::skip]
const KERN_PAIRS: [u16; 19] = [
    /*  0 */ 1, 14,                // format, coverage at 14
    /*  4 */ 5, 0,                 // value formats
    /*  8 */ 2, 22, 30,            // two pair sets, at 22 and 30
    /* 14 */ 1, 2, REH, HEH_FINAL, // the first glyphs: coverage, format 1
    /* 22 */ 1, FEH, signed(-60), signed(-60),
    /* 30 */ 1, HEH_INITIAL, 20, 20,
];

/// MarkBasePos format 1, of one class of marks.
#[rustfmt::skip]
const VOWELS_ON_LETTERS: [u16; 23] = [
    /*  0 */ 1, 12, 18,   // format, coverages at 12 and 18
    /*  6 */ 1, 24, 36,   // one class, mark array at 24, base array at 36
    /* 12 */ 1, 1, DAMMA, // the marks
    /* 18 */ 1, 1, GHAIN, // the bases
    /* 24 */ 1, 0, 6,     // one mark: its class, its anchor 6 farther on
    /* 30 */ 1, 100, 0,   // that anchor: format, x, y
    /* 36 */ 1, 4,        // one base: its anchor 4 farther on
    /* 40 */ 1, 320, 700,
];

const fn signed(n: i16) -> u16 {
    n as u16
}

struct Lookup {
    lookup_type: u16,
    flag: u16,
    feature: u32,
    /// The number of its set of marks, if the flag says that there is one.
    mark_set: u16,
    /// Its subtables that are good, end to end.
    subtables: Vec<u8>,
    /// How long each is.
    lengths: Vec<usize>,
}

/// Whether a subtable is good, and of a type that is in the library: a run over an empty line checks that alone.
fn is_good(lookup_type: u16, subtable: &[u8]) -> bool {
    let alone = gpos::Lookup { lookup_type, flag: 0, subtables: subtable, lengths: &[subtable.len()] };
    lookup(&mut [], FORM, alone, DIRECTION, SCALE, &mut []).is_ok()
}

/// A lookup of these subtables: a bad one is left out.
fn lookup_of(lookup_type: u16, flag: u16, feature: u32, mut subtables: Vec<Vec<u8>>) -> Lookup {
    subtables.retain(|subtable| is_good(lookup_type, subtable));
    let lengths = subtables.iter().map(Vec::len).collect();
    Lookup { lookup_type, flag, feature, mark_set: 0, subtables: subtables.concat(), lengths }
}

/// A program with a font takes the bytes of a subtable from its GPOS table, by `gpos::subtable`.
fn lookups() -> [Lookup; 2] {
    let bytes = |words: &[u16]| words.iter().flat_map(|word| word.to_be_bytes()).collect();
    [
        lookup_of(2, LOOKUP_IGNORE_MARKS, KERN, vec![bytes(&KERN_PAIRS)]),
        lookup_of(4, 0, MARKS, vec![bytes(&VOWELS_ON_LETTERS)]),
    ]
}

// ---- Filling the slots

/// To the nearest whole number, a tie away from zero, as the library rounds; Rust divides toward zero.
fn scaled(v: i32) -> i32 {
    let [v, em_size, units_per_em]: [i64; 3] = [v.into(), SCALE.em_size.into(), SCALE.units_per_em.into()];
    ((2 * v * em_size + v.signum() * units_per_em) / (2 * units_per_em)) as i32
}

fn fill(line: &mut [u8]) -> Result<(), WrongForm> {
    let slots = GLYPHS.each_ref().map(|glyph| Slot {
        glyph: glyph.glyph,
        flags: if glyph.class == MARK { Slot::MARK } else { 0 },
        x_advance: scaled(glyph.advance),
        ..Slot::default()
    });
    write_slots(line, FORM, &slots)
}

// ---- One lookup over the line

/// What a slot has as its glyph while it is hidden: no font has a glyph of this number.
const HIDDEN: u16 = 0xFFFF;

impl Lookup {
    fn has(&self, glyph: &Glyph) -> bool {
        glyph.features & self.feature != 0
    }

    /// Whether the lookup's flag chooses marks, by set or else by class, and this is another mark.
    fn leaves_out(&self, glyph: &Glyph) -> bool {
        let class = (self.flag & LOOKUP_MARK_ATTACHMENT_CLASS) >> 8;
        if glyph.class != MARK {
            false
        } else if self.flag & LOOKUP_USE_MARK_FILTERING_SET != 0 {
            glyph.mark_sets >> self.mark_set & 1 == 0
        } else {
            class != 0 && class != glyph.mark_class
        }
    }

    /// Whether the lookup's flag skips the glyph.
    fn skips(&self, glyph: &Glyph) -> bool {
        let bit = match glyph.class {
            BASE => LOOKUP_IGNORE_BASES,
            LIGATURE => LOOKUP_IGNORE_LIGATURES,
            MARK => LOOKUP_IGNORE_MARKS,
            _ => 0,
        };
        self.flag & bit != 0 || self.leaves_out(glyph)
    }

    /// Whether the lookup, where it looks for a glyph beside the one at hand, sees this one: it takes the first that it
    /// sees. (This label has no ZWJ, which is seen in the features mark and mkmk.)
    fn sees(&self, glyph: &Glyph) -> bool {
        !glyph.ignorable
            && match self.lookup_type {
                4 | 5 => glyph.class != MARK && self.has(glyph),
                6 => !self.leaves_out(glyph), // letters too, whatever the flag: the search ends there
                _ => !self.skips(glyph),
            }
    }

    /// Whether the glyph is hidden while the lookup runs: its flag skips it, or its feature is off there. But one that a
    /// mark may be put on is not, whatever the flag.
    fn hides(&self, glyph: &Glyph) -> bool {
        let may_have_marks = matches!(self.lookup_type, 4 | 5) && self.sees(glyph);
        !may_have_marks && (self.skips(glyph) || !self.has(glyph))
    }

    /// Sets the seen bits and hides glyphs, anew for each lookup.
    fn prepare(&self, line: &mut [u8]) -> Result<(), WrongForm> {
        for (bytes, glyph) in line.chunks_exact_mut(FORM.size()).zip(&GLYPHS) {
            let mut slot = Slot::read(bytes)?;
            slot.flags = slot.flags & !Slot::SEEN | if self.sees(glyph) { Slot::SEEN } else { 0 };
            slot.glyph = if self.hides(glyph) { HIDDEN } else { glyph.glyph };
            slot.write(bytes)?;
        }
        Ok(())
    }

    /// Says whether it attached.
    fn apply(&self, line: &mut [u8]) -> Result<bool, Box<dyn Error>> {
        let Self { lookup_type, flag, ref subtables, ref lengths, .. } = *self;
        if lengths.is_empty() {
            return Ok(false); // not in the library, or bad
        }
        self.prepare(line)?;
        let mut hazards = vec![HazardRecord::default(); places(COUNT, lengths.len())]; // not looked at here
        let run = gpos::Lookup { lookup_type, flag, subtables, lengths };
        match lookup(line, FORM, run, DIRECTION, SCALE, &mut hazards) {
            Ok(run) => Ok(run.attached),
            // The font is bad: the rest of the lookup is passed over. A refusal is this program's mistake.
            Err(RunError::Stopped { .. }) => Ok(true),
            Err(error) => Err(error.into()),
        }
    }
}

// ---- After the lookups

fn clear_advances(line: &mut [u8]) -> Result<(), WrongForm> {
    for (bytes, glyph) in line.chunks_exact_mut(FORM.size()).zip(&GLYPHS) {
        let mut slot = Slot::read(bytes)?;
        slot.glyph = glyph.glyph; // the last lookup may have hidden it
        if glyph.class == MARK || glyph.ignorable {
            (slot.x_advance, slot.y_advance) = (0, 0);
        }
        slot.write(bytes)?;
    }
    Ok(())
}

/// A panel would paint here.
fn draw_glyph(i: usize, x: i64, y: i64) {
    println!("{i} {:<5} at {x:4} {y:3}", GLYPHS[i].name);
}

fn draw(line: &[u8]) {
    let (mut x, mut y) = (0, 0); // the pen: where the label begins, at its left or top
    let mut slots: Vec<(usize, Slot)> = slots_of(line, FORM).enumerate().collect();
    if DIRECTION.is_backward() {
        slots.reverse();
    }
    for (i, slot) in slots {
        if !GLYPHS[i].ignorable {
            draw_glyph(i, x + i64::from(slot.x_offset), y + i64::from(slot.y_offset));
        }
        x += i64::from(slot.x_advance);
        y += i64::from(slot.y_advance);
    }
}

fn main() -> Result<(), Box<dyn Error>> {
    let mut line = [0; COUNT * FORM.size()];
    let mut attachments = false;
    fill(&mut line)?;
    start(&mut line, FORM)?;
    for lookup in &lookups() {
        attachments |= lookup.apply(&mut line)?;
    }
    clear_advances(&mut line)?;
    finish(&mut line, FORM, DIRECTION, NESTING_LIMIT, attachments)?;
    draw(&line);
    Ok(())
}
