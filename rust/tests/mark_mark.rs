//! Marks on marks, through the library, in both forms: linked on x86-64 Linux alone. The rules are those of
//! docs/RULES.md, Mark to mark; the Thai label is that of examples/thai.c.
#![cfg(all(target_arch = "x86_64", target_os = "linux"))]
use gpos::*;
use std::ops::Range;

const FORMS: [Form; 2] = [Form::Plain, Form::Clustered];

fn at(index: usize) -> At {
    let scale = Scale { em_size: 1000, units_per_em: 1000 };
    At { direction: Direction::LeftToRight, scale, index }
}

fn words(xs: &[i16]) -> Vec<u8> {
    xs.iter().flat_map(|x| x.to_be_bytes()).collect()
}

fn letter(glyph: u16) -> Slot {
    Slot { glyph, flags: Slot::SEEN, x_advance: 640, ..Slot::default() }
}

fn mark(glyph: u16) -> Slot {
    Slot { glyph, flags: Slot::MARK, ..Slot::default() }
}

fn line_in(form: Form, slots: &[Slot]) -> Vec<u8> {
    let cluster = (form == Form::Clustered).then_some(7);
    let slots: Vec<Slot> = slots.iter().map(|slot| Slot { cluster, ..*slot }).collect();
    line_of(form, &slots).unwrap()
}

fn applied(next: usize, range: Range<usize>) -> Result<Outcome, Refusal> {
    let hazard = Hazard { kind: HazardKind::UnsafeToBreak, range };
    Ok(Outcome::Applied { next, hazards: [Some(hazard), None], attached: true })
}

fn declined(range: Option<Range<usize>>) -> Result<Outcome, Refusal> {
    let hazard = range.map(|range| Hazard { kind: HazardKind::UnsafeToConcat, range });
    Ok(Outcome::Declined { hazard })
}

/// MarkMarkPos format 1 with one class: the mark 60 has the anchor (-150, 560), the mark 61 (-140, 560); and on the
/// mark 60 marks go to (-130, 790). The mark 62 is covered, and has no record.
fn on_mark() -> Vec<u8> {
    let head = [1, 12, 22, 1, 28, 50];
    let coverages = [1, 3, 60, 61, 62, 1, 1, 60];
    let marks = [2, 0, 10, 0, 16, 1, -150, 560, 1, -140, 560];
    let earlier = [1, 4, 1, -130, 790];
    words(&[&head[..], &coverages, &marks, &earlier].concat())
}

/// Makes the call at slot 2, and sees that a line which it declines or refuses is left as it was.
fn on(form: Form, slots: &[Slot], table: &[u8], earlier: Neighbour) -> Result<Outcome, Refusal> {
    let mut line = line_in(form, slots);
    let before = line.clone();
    let got = mark_mark(&mut line, form, table, at(2), earlier);
    assert!(line == before || matches!(got, Ok(Outcome::Applied { .. })));
    got
}

#[test]
fn a_tone_mark_goes_on_a_vowel_mark_whatever_it_hung_on() {
    let vowel = Slot { attach_type: Slot::ATTACH_MARK, chain: -1, x_offset: 650, y_offset: 40, ..mark(60) };
    let tone = Slot { attach_type: Slot::ATTACH_MARK, chain: -2, x_offset: 640, y_offset: 40, ..mark(61) };
    for form in FORMS {
        let mut line = line_in(form, &[letter(20), vowel, tone, letter(21)]);
        let got = mark_mark(&mut line, form, &on_mark(), at(2), Neighbour::Named(1));
        assert_eq!(got, applied(3, 1..3));
        // The height of the vowel mark, 40, is added to 790 - 560.
        let stacked = Slot { chain: -1, x_offset: 10, y_offset: 270, ..tone };
        assert_eq!(line, line_in(form, &[letter(20), vowel, stacked, letter(21)]));
        assert_eq!(finish(&mut line, form, Direction::LeftToRight, NESTING_LIMIT, true), Ok(()));
        let offsets: Vec<_> = slots_of(&line, form).map(|slot| (slot.x_offset, slot.y_offset)).collect();
        assert_eq!(offsets, [(0, 0), (10, 40), (20, 270), (0, 0)]);
    }
}

#[test]
fn top_to_bottom_the_walk_is_added_on_x() {
    let mut line = line_in(Form::Plain, &[Slot { x_offset: 40, y_offset: 5, ..mark(60) }, mark(61)]);
    let at = At { direction: Direction::TopToBottom, ..at(1) };
    assert_eq!(mark_mark(&mut line, Form::Plain, &on_mark(), at, Neighbour::Named(0)), applied(2, 0..2));
    let slot = slot_at(&line, Form::Plain, 1).unwrap();
    assert_eq!((slot.x_offset, slot.y_offset, slot.chain), (50, 230, -1));
}

#[test]
fn the_seen_bit_is_not_looked_at() {
    for flags in [Slot::MARK, Slot::MARK | Slot::SEEN] {
        let slots = [letter(20), Slot { flags, ..mark(60) }, mark(61)];
        assert_eq!(on(Form::Plain, &slots, &on_mark(), Neighbour::Named(1)), applied(3, 1..3));
    }
}

/// What comes later in this order would give another answer.
#[test]
fn declines_come_in_their_order() {
    let [own, other] = [mark(61), mark(60)];
    let no_record = mark(62);
    let apart = Slot { ligature_id: 1, component: 1, ..other };
    let ring = Slot { attach_type: Slot::ATTACH_CURSIVE, chain: -1, ..other };
    let in_ring = Slot { attach_type: Slot::ATTACH_CURSIVE, chain: 1, ..letter(20) };
    for (slots, earlier, expected) in [
        ([letter(20), other, mark(63)], Neighbour::Missing(1), declined(None)), // uncovered
        ([letter(20), other, no_record], Neighbour::Missing(1), declined(Some(1..3))),
        ([letter(20), letter(60), no_record], Neighbour::Named(1), declined(Some(1..3))), // no mark
        ([letter(20), apart, no_record], Neighbour::Named(1), declined(Some(1..3))),
        ([letter(20), mark(63), own], Neighbour::Named(1), declined(None)), // the earlier one is uncovered
        ([in_ring, ring, no_record], Neighbour::Named(1), declined(None)),
        ([in_ring, ring, own], Neighbour::Named(1), Err(Refusal::Endless)),
        ([letter(20), ring, own], Neighbour::Named(1), applied(3, 1..3)), // a walk that ends
    ] {
        for form in FORMS {
            assert_eq!(on(form, &slots, &on_mark(), earlier), expected, "{slots:?}, {earlier:?}");
        }
    }
}

#[test]
fn a_bound_in_place_of_a_missing_glyph_is_told_back() {
    let slots = [letter(20), mark(60), mark(61), letter(21)];
    for bound in 0..=4 {
        assert_eq!(on(Form::Plain, &slots, &on_mark(), Neighbour::Missing(bound)), declined(Some(bound..3)));
    }
}

/// Each pair of ids and components with whether the marks go together.
#[test]
fn marks_go_together_by_ids_and_components() {
    for ((id, component), (earlier_id, earlier_component), together) in [
        ((0, 0), (0, 0), true),
        ((0, 1), (0, 2), true),
        ((1, 2), (1, 2), true),
        ((1, 1), (1, 2), false),
        ((1, 0), (1, 2), false),
        ((1, 1), (2, 1), false),
        ((1, 0), (2, 1), true),
        ((1, 1), (2, 0), true),
        ((0, 0), (2, 1), false), // the id of one and the component of the other
        ((2, 1), (0, 0), false),
        ((0, 1), (2, 0), true),
    ] {
        let own = Slot { ligature_id: id, component, ..mark(61) };
        let earlier = Slot { ligature_id: earlier_id, component: earlier_component, ..mark(60) };
        let expected = if together { applied(3, 1..3) } else { declined(Some(1..3)) };
        for form in FORMS {
            let got = on(form, &[letter(20), earlier, own], &on_mark(), Neighbour::Named(1));
            assert_eq!(got, expected, "{id} {component} on {earlier_id} {earlier_component}");
        }
    }
}

#[test]
fn where_a_part_of_the_subtable_is_missing_it_declines_without_a_hazard() {
    let whole = on_mark();
    let with = |place: usize, word: i16| {
        let mut table = whole.clone();
        table[place..place + 2].copy_from_slice(&word.to_be_bytes());
        table
    };
    for (table, missing) in [
        (with(4, 0), "the coverage of the earlier marks"),
        (with(8, 0), "the mark array"),
        (with(10, 0), "the array of the earlier marks"),
        (with(34, 1), "the mark's class, which isn't below the number of classes"),
        (with(44, 4), "the mark's anchor, by its format"),
        (with(50, 5), "an array of five rows, as a whole"),
        (with(52, 0), "the earlier mark's anchor"),
        (whole[..59].to_vec(), "its last byte"),
        (whole[..53].to_vec(), "the row's last byte"),
    ] {
        let slots = [letter(20), mark(60), mark(61)];
        assert_eq!(on(Form::Plain, &slots, &table, Neighbour::Named(1)), declined(None), "without {missing}");
        let behind_a_letter = on(Form::Plain, &slots, &table, Neighbour::Named(0));
        assert_eq!(behind_a_letter, declined(Some(0..3)), "without {missing}");
    }
}

#[test]
fn a_neighbour_out_of_place_is_refused_before_a_bad_subtable() {
    let slots = [letter(20), mark(60), mark(61), letter(21)];
    for earlier in [Neighbour::Named(2), Neighbour::Named(3), Neighbour::Named(usize::MAX), Neighbour::Missing(5)] {
        for form in FORMS {
            assert_eq!(on(form, &slots, &[], earlier), Err(Refusal::Index), "{earlier:?}");
        }
    }
    assert_eq!(on(Form::Plain, &slots[..2], &on_mark(), Neighbour::Missing(0)), Err(Refusal::Index));
}

#[test]
fn a_bad_subtable_is_refused_before_a_decline() {
    let with = |place: usize, word: i16| {
        let mut table = on_mark();
        table[place..place + 2].copy_from_slice(&word.to_be_bytes());
        table
    };
    for (table, what) in [
        (on_mark()[..11].to_vec(), "a cut header"),
        (with(0, 2), "format 2"),
        (with(2, 70), "the marks' coverage past the end"),
        (with(16, 61), "the marks' coverage out of order"),
        (with(4, 70), "the earlier marks' coverage past the end"),
        (with(22, 3), "the earlier marks' coverage of format 3"),
    ] {
        for neighbour in [Neighbour::Named(1), Neighbour::Missing(0)] {
            let got = on(Form::Plain, &[letter(20), mark(60), mark(63)], &table, neighbour);
            assert_eq!(got, Err(Refusal::Subtable), "{what}");
        }
    }
}
