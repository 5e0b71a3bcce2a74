//! What this package does alone, without the library and without `alloc`: slots written to a line and read from it, the
//! bytes of a subtable.
use gpos::*;

const FORMS: [Form; 2] = [Form::Plain, Form::Clustered];

/// A slot whose every byte is another, so that none may change its place.
fn slot(form: Form) -> Slot {
    Slot {
        glyph: 0x0102,
        ligature_id: 3,
        component: 4,
        flags: 5,
        attach_type: 6,
        chain: 0x0708,
        x_advance: 0x090a0b0c,
        y_advance: 0x0d0e0f10,
        x_offset: 0x11121314,
        y_offset: 0x15161718,
        cluster: (form == Form::Clustered).then_some(0x191a1b1c),
    }
}

fn bytes(form: Form) -> Vec<u8> {
    (1..=form.size() as u8).collect()
}

#[test]
fn each_field_has_its_bytes() {
    for form in FORMS {
        let mut line = vec![255; form.size()];
        assert_eq!(slot(form).write(&mut line), Ok(()));
        assert_eq!(line, bytes(form));
        assert_eq!(Slot::read(&line), Ok(slot(form)));
        assert_eq!(slot(form).form(), form);
    }
}

#[test]
fn negative_numbers_come_back() {
    let low = Slot { chain: -1, x_advance: -2, y_advance: i32::MIN, x_offset: -3, y_offset: -4, ..Slot::default() };
    let mut line = [0; Form::Plain.size()];
    assert_eq!(low.write(&mut line), Ok(()));
    assert_eq!(Slot::read(&line), Ok(low));
}

#[test]
fn bytes_that_are_no_slot_are_an_error_and_stay() {
    for form in FORMS {
        for len in (0..40).filter(|len| *len != form.size()) {
            let mut line = vec![255; len];
            assert_eq!(slot(form).write(&mut line), Err(WrongForm));
            assert!(line.iter().all(|byte| *byte == 255));
        }
    }
    for len in (0..40).filter(|len| *len != 24 && *len != 28) {
        assert_eq!(Slot::read(&vec![0; len]), Err(WrongForm));
    }
}

#[test]
fn a_line_is_written_and_read_in_either_order() {
    for form in FORMS {
        let slots = [1, 2, 3].map(|glyph| Slot { glyph, ..slot(form) });
        let mut line = vec![0; 3 * form.size()];
        assert_eq!(write_slots(&mut line, form, &slots), Ok(()));
        assert!(slots_of(&line, form).eq(slots));
        assert!(slots_of(&line, form).rev().eq([slots[2], slots[1], slots[0]]));
        line.pop();
        assert!(slots_of(&line, form).eq([slots[0], slots[1]]), "the last slot is cut");
    }
    assert_eq!(write_slots(&mut [], Form::Plain, &[]), Ok(()));
    assert_eq!(slots_of(&[], Form::Plain).len(), 0);
}

/// A line that isn't written stays as it was, its first slots too. 168 bytes are whole slots of either form.
#[test]
fn no_cluster_is_lost_or_made_up() {
    for (form, other) in [(Form::Plain, Form::Clustered), (Form::Clustered, Form::Plain)] {
        for (slots, len) in [
            (vec![slot(form), slot(other)], 2 * form.size()),
            (vec![slot(form), slot(form)], 2 * form.size() - 1),
            (vec![slot(form), slot(form)], 3 * form.size()),
            (vec![slot(other); 168 / other.size()], 168),
        ] {
            let mut line = vec![255; len];
            assert_eq!(write_slots(&mut line, form, &slots), Err(WrongForm));
            assert!(line.iter().all(|byte| *byte == 255));
        }
    }
}

#[test]
fn slots_are_counted_from_either_end() {
    for form in FORMS {
        let line = vec![0; 4 * form.size() - 1];
        let mut slots = slots_of(&line, form);
        assert_eq!(slots.len(), 3, "the last slot is cut");
        assert!(slots.next().is_some() && slots.next_back().is_some());
        assert_eq!((slots.len(), slots.size_hint()), (1, (1, Some(1))));
        assert!(slots_of(&line, form).enumerate().rev().map(|(i, _)| i).eq([2, 1, 0]));
    }
}

/// The last slot is cut, so the line has three.
#[test]
fn one_slot_is_read_and_written_in_its_place() {
    for form in FORMS {
        let mut line = vec![255; 4 * form.size() - 1];
        assert_eq!(put_slot(&mut line, form, 1, slot(form)), Ok(()));
        assert_eq!(slot_at(&line, form, 1), Some(slot(form)));
        let written = form.size()..2 * form.size();
        assert_eq!(line[written.clone()], bytes(form));
        assert!(line.iter().enumerate().all(|(i, byte)| written.contains(&i) || *byte == 255));
        for i in 0..3 {
            assert_eq!(slot_at(&line, form, i), slots_of(&line, form).nth(i));
            assert_eq!(put_slot(&mut line, form, i, slot(form)), Ok(()));
        }
    }
}

#[test]
fn a_slot_past_the_end_or_of_the_other_form_is_neither_read_nor_written() {
    for (form, other) in [(Form::Plain, Form::Clustered), (Form::Clustered, Form::Plain)] {
        let mut line = vec![255; 4 * form.size() - 1];
        for index in [3, 4, usize::MAX / form.size() + 2, usize::MAX] {
            assert_eq!(slot_at(&line, form, index), None);
            assert_eq!(put_slot(&mut line, form, index, slot(form)), Err(WrongForm));
        }
        for index in [0, 2, 3] {
            assert_eq!(put_slot(&mut line, form, index, slot(other)), Err(WrongForm));
        }
        assert!(line.iter().all(|byte| *byte == 255));
        assert_eq!(slot_at(&[], form, 0), None);
        assert_eq!(put_slot(&mut [], form, 0, slot(form)), Err(WrongForm));
    }
}

#[test]
fn errors_that_a_wrong_form_may_cause_say_so() {
    for text in [WrongForm.to_string(), Refusal::Line.to_string(), Refusal::Slot.to_string()] {
        assert!(text.contains("form"), "{text}");
    }
}

#[cfg(feature = "alloc")]
#[test]
fn line_of_makes_the_bytes_that_write_slots_writes() {
    for form in FORMS {
        assert_eq!(line_of(form, &[slot(form); 2]), Ok(bytes(form).repeat(2)));
    }
    assert_eq!(line_of(Form::Plain, &[slot(Form::Plain), slot(Form::Clustered)]), Err(WrongForm));
}

#[test]
fn a_subtable_goes_to_the_tables_end_or_the_most_bytes() {
    let table: Vec<u8> = (0..MOST_SUBTABLE + 2).map(|i| i as u8).collect();
    for (offset, len) in [(0, MOST_SUBTABLE), (1, MOST_SUBTABLE), (2, MOST_SUBTABLE), (3, MOST_SUBTABLE - 1)] {
        assert_eq!(subtable(&table, offset), &table[offset..offset + len]);
    }
    assert_eq!(subtable(&table, table.len() - 1), [1]);
    for offset in [table.len(), table.len() + 1, usize::MAX] {
        assert!(subtable(&table, offset).is_empty());
    }
    assert!(subtable(&[], 0).is_empty());
}

/// Drawn in this order, the pen goes to the right or downward.
#[test]
fn two_directions_are_backward() {
    const BACKWARD: bool = Direction::RightToLeft.is_backward();
    assert!(BACKWARD && Direction::BottomToTop.is_backward());
    assert!(!Direction::LeftToRight.is_backward() && !Direction::TopToBottom.is_backward());
}

#[test]
fn the_bits_of_a_lookups_flag_are_those_of_opentype() {
    let bits = [
        LOOKUP_RIGHT_TO_LEFT,
        LOOKUP_IGNORE_BASES,
        LOOKUP_IGNORE_LIGATURES,
        LOOKUP_IGNORE_MARKS,
        LOOKUP_USE_MARK_FILTERING_SET,
        LOOKUP_MARK_ATTACHMENT_CLASS,
    ];
    assert_eq!(bits, [1, 2, 4, 8, 16, 0xFF00]);
}
