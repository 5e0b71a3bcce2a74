//! The calls, through the library, in both forms: linked on x86-64 Linux alone. The numbers are those of docs/RULES.md.
#![cfg(all(target_arch = "x86_64", target_os = "linux"))]
use gpos::*;
use std::ops::Range;

const FORMS: [Form; 2] = [Form::Plain, Form::Clustered];
const SCALE: Scale = Scale { em_size: 1000, units_per_em: 1000 };

fn at(index: usize) -> At {
    At { direction: Direction::LeftToRight, scale: SCALE, index }
}

fn words(xs: &[i16]) -> Vec<u8> {
    xs.iter().flat_map(|x| x.to_be_bytes()).collect()
}

fn glyph(glyph: u16) -> Slot {
    Slot { glyph, flags: Slot::SEEN, x_advance: 600, ..Slot::default() }
}

/// What `line_in` sets, and no call may write.
fn cluster(form: Form, slot: usize) -> Option<u32> {
    (form == Form::Clustered).then_some(u32::MAX - slot as u32)
}

fn line_in(form: Form, slots: &[Slot]) -> Vec<u8> {
    let slots: Vec<Slot> =
        slots.iter().enumerate().map(|(i, slot)| Slot { cluster: cluster(form, i), ..*slot }).collect();
    line_of(form, &slots).unwrap()
}

fn slots(form: Form, line: &[u8]) -> Vec<Slot> {
    let slots: Vec<Slot> = slots_of(line, form).collect();
    assert!(slots.iter().enumerate().all(|(i, slot)| slot.cluster == cluster(form, i)));
    slots
}

fn hazard(kind: HazardKind, range: Range<usize>) -> Option<Hazard> {
    Some(Hazard { kind, range })
}

/// An Applied with one hazard: unsafe to break.
fn applied(next: usize, range: Range<usize>, attached: bool) -> Result<Outcome, Refusal> {
    Ok(Outcome::Applied { next, hazards: [hazard(HazardKind::UnsafeToBreak, range), None], attached })
}

fn mark(glyph: u16) -> Slot {
    Slot { glyph, flags: Slot::MARK, ..Slot::default() }
}

/// A base, a mark that hangs on it, and a mark that hangs on that mark.
fn label(form: Form) -> Vec<u8> {
    let attached = Slot { attach_type: Slot::ATTACH_MARK, chain: -1, ..mark(501) };
    let on_base = Slot { x_offset: 250, y_offset: 40, ..attached };
    let on_mark = Slot { x_offset: 10, y_offset: 700, ..attached };
    line_in(form, &[glyph(36), on_base, on_mark])
}

/// SinglePos format 1: x advance +25 for glyph 36.
fn wider() -> Vec<u8> {
    words(&[1, 8, 4, 25, 1, 1, 36])
}

#[test]
fn starting_clears_attachments() {
    for form in FORMS {
        let mut line = label(form);
        assert_eq!(start(&mut line, form), Ok(()));
        assert!(slots(form, &line).iter().all(|s| s.chain == 0 && s.attach_type == 0));
        assert_eq!(start(&mut [], form), Ok(()));
    }
}

#[test]
fn single_adjusts_what_it_covers() {
    for form in FORMS {
        let mut line = label(form);
        let got = single(&mut line, form, &wider(), at(0));
        assert_eq!(got, Ok(Outcome::Applied { next: 1, hazards: [None, None], attached: false }));
        assert_eq!(slots(form, &line)[0].x_advance, 625);
        let before = line.clone();
        assert_eq!(single(&mut line, form, &wider(), at(1)), Ok(Outcome::Declined { hazard: None }));
        assert_eq!(line, before);
    }
}

/// SinglePos format 1 for glyph 36: x placement 1, y placement 2, x advance 4, y advance 8.
#[test]
fn the_advance_across_the_line_is_not_applied_and_the_one_downward_is_subtracted() {
    let table = words(&[1, 14, 15, 1, 2, 4, 8, 1, 1, 36]);
    for (direction, x_advance, y_advance) in [
        (Direction::LeftToRight, 604, 0),
        (Direction::RightToLeft, 604, 0),
        (Direction::TopToBottom, 600, -8),
        (Direction::BottomToTop, 600, -8),
    ] {
        let mut line = line_in(Form::Plain, &[glyph(36)]);
        assert!(single(&mut line, Form::Plain, &table, At { direction, ..at(0) }).is_ok());
        let expected = Slot { x_offset: 1, y_offset: 2, x_advance, y_advance, ..glyph(36) };
        assert_eq!(slots(Form::Plain, &line), [expected]);
    }
}

#[test]
fn values_are_scaled_to_the_nearest_and_ties_go_away_from_zero() {
    let scale = Scale { em_size: 500, units_per_em: 1000 };
    for (value, expected) in [(3, 2), (-3, -2), (1, 1), (-1, -1), (2, 1), (-2, -1), (0, 0)] {
        let mut line = line_in(Form::Plain, &[glyph(36)]);
        let table = words(&[1, 8, 1, value, 1, 1, 36]);
        assert!(single(&mut line, Form::Plain, &table, At { scale, ..at(0) }).is_ok());
        assert_eq!(slots(Form::Plain, &line)[0].x_offset, expected);
    }
}

#[test]
fn sums_stop_at_the_ends_of_32_bits() {
    let mut line = line_in(Form::Plain, &[Slot { x_advance: i32::MAX - 24, ..glyph(36) }]);
    assert!(single(&mut line, Form::Plain, &wider(), at(0)).is_ok());
    assert_eq!(slots(Form::Plain, &line)[0].x_advance, i32::MAX);
}

/// The coverage lies where the record should be, and with it the subtable ends.
#[test]
fn a_cut_value_record_is_applied_and_adds_nothing() {
    let mut line = line_in(Form::Plain, &[glyph(36)]);
    let got = single(&mut line, Form::Plain, &words(&[1, 6, 15, 1, 1, 36]), at(0));
    assert_eq!(got, Ok(Outcome::Applied { next: 1, hazards: [None, None], attached: false }));
    assert_eq!(slots(Form::Plain, &line), [glyph(36)]);
}

/// PairPos format 1 for the glyphs 1 and 2: value formats and the pair's values.
fn kern(formats: [i16; 2], values: &[i16]) -> Vec<u8> {
    words(&[&[1, 12, formats[0], formats[1], 1, 18, 1, 1, 1, 1, 2], values].concat())
}

#[test]
fn pairs_say_which_glyphs_depend_on_each_other() {
    for form in FORMS {
        let mut line = line_in(form, &[glyph(1), glyph(2)]);
        let got = pair(&mut line, form, &kern([4, 0], &[-50]), at(0), Neighbour::Named(1));
        assert_eq!(got, applied(1, 0..2, false));
        assert_eq!(slots(form, &line)[0].x_advance, 550);
        let got = pair(&mut line, form, &kern([4, 4], &[-50, 0]), at(0), Neighbour::Named(1));
        let hazards = [hazard(HazardKind::UnsafeToBreak, 0..2), hazard(HazardKind::UnsafeToBreak, 0..3)];
        assert_eq!(got, Ok(Outcome::Applied { next: 2, hazards, attached: false }));
        let got = pair(&mut line, form, &kern([4, 0], &[-50]), at(1), Neighbour::Missing(2));
        assert_eq!(got, Ok(Outcome::Declined { hazard: None }), "glyph 2 is uncovered");
        let got = pair(&mut line, form, &kern([4, 0], &[-50]), at(0), Neighbour::Missing(2));
        assert_eq!(got, Ok(Outcome::Declined { hazard: hazard(HazardKind::UnsafeToConcat, 0..2) }));
    }
}

#[test]
fn cursive_joins_anchors() {
    let table = words(&[1, 14, 2, 0, 22, 28, 0, 1, 2, 1, 2, 1, 500, 20, 1, 30, 5]);
    for form in FORMS {
        let mut line = line_in(form, &[glyph(1), glyph(2)]);
        let got = cursive(&mut line, form, &table, at(1), Neighbour::Named(0), 0);
        assert_eq!(got, applied(2, 0..2, true));
        let s = slots(form, &line);
        assert_eq!((s[0].x_advance, s[1].x_advance, s[1].x_offset, s[1].y_offset, s[1].chain), (500, 570, -30, 15, -1));
        // Other bits change nothing.
        let mut other = line_in(form, &[glyph(1), glyph(2)]);
        let got = cursive(&mut other, form, &table, at(1), Neighbour::Named(0), !LOOKUP_RIGHT_TO_LEFT);
        assert_eq!((got, other), (applied(2, 0..2, true), line));
        // Turned round, the earlier glyph hangs on the later one.
        let mut line = line_in(form, &[glyph(1), glyph(2)]);
        let got = cursive(&mut line, form, &table, at(1), Neighbour::Named(0), LOOKUP_RIGHT_TO_LEFT);
        assert_eq!(got, applied(2, 0..2, true));
        let s = slots(form, &line);
        assert_eq!((s[0].attach_type, s[0].y_offset, s[0].chain, s[1].chain), (Slot::ATTACH_CURSIVE, -15, 1, 0));
    }
}

/// MarkBasePos or MarkLigPos format 1: mark glyph 2 with anchor (10, 20), glyph 1 with anchor (300, 700) in its one
/// row.
fn marks(ligature: bool) -> Vec<u8> {
    let head = words(&[1, 12, 18, 1, 24, 36, 1, 1, 2, 1, 1, 1, 1, 0, 6, 1, 10, 20]);
    let rows = words(&[1, 4, 1, 300, 700]);
    [head, if ligature { words(&[1, 4]) } else { vec![] }, rows].concat()
}

#[test]
fn marks_attach_to_bases_and_ligatures() {
    for (form, ligature) in FORMS.into_iter().flat_map(|form| [(form, false), (form, true)]) {
        let mut line = line_in(form, &[glyph(1), mark(2)]);
        let got = if ligature {
            mark_ligature(&mut line, form, &marks(true), at(1))
        } else {
            mark_base(&mut line, form, &marks(false), at(1))
        };
        assert_eq!(got, applied(2, 0..2, true));
        let s = slots(form, &line)[1];
        assert_eq!((s.attach_type, s.chain, s.x_offset, s.y_offset), (Slot::ATTACH_MARK, -1, 290, 680));
    }
}

/// MarkLigPos format 1: glyph 1 has three components, with anchors (100, 0), (200, 0) and (300, 0), the mark (0, 0).
#[test]
fn a_mark_goes_to_its_component_or_the_last() {
    let head = words(&[1, 12, 18, 1, 24, 36, 1, 1, 2, 1, 1, 1, 1, 0, 6, 1, 0, 0]);
    let table = [head, words(&[1, 4, 3, 8, 14, 20, 1, 100, 0, 1, 200, 0, 1, 300, 0])].concat();
    for (id, mark_id, component, x) in [
        (1, 1, 1, 100),
        (1, 1, 2, 200),
        (1, 1, 3, 300),
        (1, 1, 5, 300),
        (1, 1, 0, 300),
        (1, 2, 1, 300),
        (1, 0, 1, 300),
        (0, 0, 1, 300),
    ] {
        let ligature = Slot { ligature_id: id, ..glyph(1) };
        let mark = Slot { ligature_id: mark_id, component, ..mark(2) };
        for form in FORMS {
            let mut line = line_in(form, &[ligature, mark]);
            assert_eq!(mark_ligature(&mut line, form, &table, at(1)), applied(2, 0..2, true));
            assert_eq!(slots(form, &line)[1].x_offset, x, "ids {id} and {mark_id}, component {component}");
        }
    }
}

/// Of glyphs made of one, and of marks that stand behind or between them, glyph 1 is covered and 7 is not.
#[test]
fn a_mark_goes_to_the_first_of_the_glyphs_made_of_one() {
    let part = |glyph, component, flags| Slot { component, flags: Slot::MULTIPLIED | flags, ..mark(glyph) };
    let letter = |glyph, component| part(glyph, component, Slot::SEEN);
    let declined = Ok(Outcome::Declined { hazard: hazard(HazardKind::UnsafeToConcat, 2..4) });
    for (made, expected) in [
        ([letter(1, 0), letter(7, 1), letter(7, 2)], applied(4, 0..4, true)),
        ([letter(7, 0), letter(1, 1), letter(7, 2)], applied(4, 1..4, true)),
        ([letter(1, 0), mark(2), letter(7, 1)], declined.clone()),
        ([letter(1, 0), part(2, 1, Slot::MARK), letter(7, 2)], declined),
        ([letter(1, 0), part(2, 1, 0), letter(7, 2)], applied(4, 0..4, true)),
    ] {
        for form in FORMS {
            let mut line = line_in(form, &[&made[..], &[mark(2)]].concat());
            assert_eq!(mark_base(&mut line, form, &marks(false), at(3)), expected);
        }
    }
    // As a ligature only the first may be taken, or one that is covered.
    let mut line = line_in(Form::Plain, &[letter(1, 0), mark(2), letter(7, 1), mark(2)]);
    assert_eq!(mark_ligature(&mut line, Form::Plain, &marks(true), at(3)), applied(4, 0..4, true));
}

/// Slots 0 and 1, both left from other work, hang on each other, and slot 1 is the base of the mark at 2.
#[test]
fn an_endless_walk_is_refused_until_the_line_is_started() {
    let old = |chain| Slot { attach_type: Slot::ATTACH_CURSIVE, chain, ..glyph(1) };
    for form in FORMS {
        let mut line = line_in(form, &[old(1), old(-1), mark(2)]);
        let before = line.clone();
        assert_eq!(mark_base(&mut line, form, &marks(false), at(2)), Err(Refusal::Endless));
        assert_eq!(line, before);
        assert_eq!(start(&mut line, form), Ok(()));
        assert_eq!(mark_base(&mut line, form, &marks(false), at(2)), applied(3, 1..3, true));
    }
}

/// Slot 0 hangs on 1, 1 on 2, and by another lookup, which skips slot 1 and isn't turned round, 2 on 0.
#[test]
fn cursive_lookups_of_a_bad_font_hang_glyphs_in_a_ring_and_do_no_harm() {
    let table = words(&[1, 10, 1, 16, 22, 1, 1, 1, 1, 0, 0, 1, 500, 20]);
    for form in FORMS {
        let mut line = line_in(form, &[glyph(1), glyph(1), glyph(1), mark(2)]);
        assert_eq!(start(&mut line, form), Ok(()));
        for (index, previous, flag) in [(1, 0, LOOKUP_RIGHT_TO_LEFT), (2, 1, LOOKUP_RIGHT_TO_LEFT), (2, 0, 0)] {
            let got = cursive(&mut line, form, &table, at(index), Neighbour::Named(previous), flag);
            assert_eq!(got, applied(index + 1, previous..index + 1, true));
        }
        assert_eq!(mark_base(&mut line, form, &marks(false), at(3)), Err(Refusal::Endless));
        assert_eq!(finish(&mut line, form, Direction::LeftToRight, NESTING_LIMIT, true), Ok(()));
        assert!(slots(form, &line).iter().all(|s| s.chain == 0));
    }
}

#[test]
fn finishing_moves_a_mark_with_what_it_hangs_on() {
    for form in FORMS {
        let mut line = label(form);
        assert_eq!(finish(&mut line, form, Direction::LeftToRight, NESTING_LIMIT, true), Ok(()));
        let slots = slots(form, &line);
        let offsets: Vec<(i32, i32)> = slots.iter().map(|s| (s.x_offset, s.y_offset)).collect();
        assert_eq!(offsets, [(0, 0), (-350, 40), (-340, 700)]);
        assert!(slots.iter().all(|s| s.chain == 0));
    }
}

/// Two letters, 1 and 3, that are moved together and joined, and a mark on the first.
#[test]
fn a_label_of_joined_letters_is_drawn_from_right_to_left() {
    let closer = words(&[1, 12, 4, 0, 1, 18, 1, 1, 1, 1, 3, -30]);
    let join = words(&[1, 14, 2, 0, 22, 28, 0, 1, 2, 1, 3, 1, 0, 80, 1, 500, 20]);
    let at = |index| At { direction: Direction::RightToLeft, ..at(index) };
    for form in FORMS {
        let mut line = line_in(form, &[glyph(1), mark(2), glyph(3)]);
        assert_eq!(start(&mut line, form), Ok(()));
        assert_eq!(pair(&mut line, form, &closer, at(0), Neighbour::Named(2)), applied(2, 0..3, false));
        let got = cursive(&mut line, form, &join, at(2), Neighbour::Named(0), LOOKUP_RIGHT_TO_LEFT);
        assert_eq!(got, applied(3, 0..3, true));
        assert_eq!(mark_base(&mut line, form, &marks(false), at(1)), applied(2, 0..2, true));
        assert_eq!(finish(&mut line, form, Direction::RightToLeft, NESTING_LIMIT, true), Ok(()));
        let mut pen = 0;
        let drawn = slots_of(&line, form).rev().map(|slot| {
            pen += slot.x_advance;
            (slot.glyph, pen - slot.x_advance + slot.x_offset, slot.y_offset)
        });
        assert!(drawn.eq([(3, 0, 0), (2, 790, 620), (1, 500, -60)]));
        assert_eq!(pen, 1070);
    }
}

#[test]
fn finishing_without_attachments_leaves_the_line() {
    for form in FORMS {
        let mut line = label(form);
        assert_eq!(finish(&mut line, form, Direction::LeftToRight, NESTING_LIMIT, false), Ok(()));
        assert_eq!(line, label(form));
    }
}

#[test]
fn what_is_out_of_range_is_refused() {
    for form in FORMS {
        let mut line = label(form);
        assert_eq!(start(&mut line[1..], form), Err(Refusal::Line));
        assert_eq!(finish(&mut line, form, Direction::TopToBottom, 65, true), Err(Refusal::Range));
        let none = Scale { em_size: 0, ..SCALE };
        assert_eq!(single(&mut line, form, &wider(), At { scale: none, ..at(0) }), Err(Refusal::Range));
        assert_eq!(single(&mut line, form, &wider(), at(3)), Err(Refusal::Index));
        assert_eq!(single(&mut line, form, &wider()[..13], at(0)), Err(Refusal::Subtable));
        line[2] = 8;
        assert_eq!(start(&mut line, form), Err(Refusal::Slot));
        assert_eq!(start(&mut vec![0; MOST_SLOTS * form.size()], form), Ok(()));
        assert_eq!(start(&mut vec![0; (MOST_SLOTS + 1) * form.size()], form), Err(Refusal::Line));
    }
}

#[test]
fn a_subtable_may_have_so_many_bytes_and_not_one_more() {
    let mut table = wider();
    table.resize(MOST_SUBTABLE + 1, 0);
    for form in FORMS {
        let mut line = line_in(form, &[glyph(36)]);
        assert_eq!(single(&mut line, form, &table, at(0)), Err(Refusal::Subtable));
        let got = single(&mut line, form, subtable(&table, 0), at(0));
        assert_eq!(got, Ok(Outcome::Applied { next: 1, hazards: [None, None], attached: false }));
        assert_eq!(single(&mut line, form, subtable(&table, table.len()), at(0)), Err(Refusal::Subtable));
    }
}

/// A chain of -1, taken for a ligature id and a component, is out of range.
#[test]
fn a_wrong_form_is_refused_for_its_length_or_for_what_it_takes_for_slots() {
    let attached = Slot { chain: -1, ..mark(2) };
    assert_eq!(start(&mut line_in(Form::Plain, &[attached; 3]), Form::Clustered), Err(Refusal::Line));
    assert_eq!(start(&mut line_in(Form::Plain, &[attached; 7]), Form::Clustered), Err(Refusal::Slot));
}

/// 168 bytes are seven slots or six, as the caller says.
#[test]
fn the_form_says_how_many_slots_there_are() {
    let mut line = [0; 168];
    assert_eq!(single(&mut line, Form::Plain, &wider(), at(6)), Ok(Outcome::Declined { hazard: None }));
    assert_eq!(single(&mut line, Form::Clustered, &wider(), at(6)), Err(Refusal::Index));
}
