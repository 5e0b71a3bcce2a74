//! Whole lookups, through the library, in both forms: linked on x86-64 Linux alone. Each run that isn't refused is
//! compared with the single calls that it stands for.
#![cfg(all(target_arch = "x86_64", target_os = "linux"))]
use gpos::*;
use std::ops::Range;

const FORMS: [Form; 2] = [Form::Plain, Form::Clustered];
const LEFT_TO_RIGHT: Direction = Direction::LeftToRight;
const SCALE: Scale = Scale { em_size: 1000, units_per_em: 1000 };
/// What a place of the list holds before a run.
const OLD: HazardRecord = HazardRecord { kind: 77, start: 88, end: 99 };
/// The glyph of a slot that is hidden.
const HIDDEN: u16 = 0xFFFF;

// ---- Lines

fn letter(glyph: u16) -> Slot {
    Slot { glyph, flags: Slot::SEEN, x_advance: 600, ..Slot::default() }
}

fn mark(glyph: u16) -> Slot {
    Slot { glyph, flags: Slot::MARK, ..Slot::default() }
}

fn with_clusters(form: Form, slots: &[Slot]) -> Vec<Slot> {
    let cluster = |i: usize| (form == Form::Clustered).then_some(u32::MAX - i as u32);
    slots.iter().enumerate().map(|(i, slot)| Slot { cluster: cluster(i), ..*slot }).collect()
}

fn line_in(form: Form, slots: &[Slot]) -> Vec<u8> {
    line_of(form, &with_clusters(form, slots)).unwrap()
}

/// The slots, in the plain form. No call may have written a cluster.
fn plain(form: Form, line: &[u8]) -> Vec<Slot> {
    let slots: Vec<Slot> = slots_of(line, form).map(|slot| Slot { cluster: None, ..slot }).collect();
    assert_eq!(line, line_in(form, &slots));
    slots
}

fn advances(slots: &[Slot]) -> Vec<i32> {
    slots.iter().map(|slot| slot.x_advance).collect()
}

// ---- Subtables

fn words(xs: &[i16]) -> Vec<u8> {
    xs.iter().flat_map(|x| x.to_be_bytes()).collect()
}

/// SinglePos format 1: x advance for one glyph.
fn wider(glyph: i16, by: i16) -> Vec<u8> {
    words(&[1, 8, 4, by, 1, 1, glyph])
}

/// PairPos format 1 for one pair: value formats, and the values.
fn kern(pair: [i16; 2], formats: [i16; 2], values: &[i16]) -> Vec<u8> {
    words(&[&[1, 12, formats[0], formats[1], 1, 18, 1, 1, pair[0], 1, pair[1]], values].concat())
}

/// CursivePos format 1: one glyph, with the entry anchor (0, 0) and the exit anchor (500, 20).
fn join(glyph: i16) -> Vec<u8> {
    words(&[1, 10, 1, 16, 22, 1, 1, glyph, 1, 0, 0, 1, 500, 20])
}

/// MarkBasePos or MarkMarkPos format 1: a mark with the anchor (10, 20), on a glyph with the anchor (300, 700).
fn on(mark: i16, glyph: i16) -> Vec<u8> {
    words(&[1, 12, 18, 1, 24, 36, 1, 1, mark, 1, 1, glyph, 1, 0, 6, 1, 10, 20, 1, 4, 1, 300, 700])
}

/// MarkLigPos format 1: the same, of a ligature with one component.
fn on_ligature(mark: i16, glyph: i16) -> Vec<u8> {
    words(&[1, 12, 18, 1, 24, 36, 1, 1, mark, 1, 1, glyph, 1, 0, 6, 1, 10, 20, 1, 4, 1, 4, 1, 300, 700])
}

/// A lookup and its subtables.
struct Tables {
    lookup_type: u16,
    flag: u16,
    each: Vec<Vec<u8>>,
}

fn tables(lookup_type: u16, each: &[Vec<u8>]) -> Tables {
    Tables { lookup_type, flag: 0, each: each.to_vec() }
}

// ---- Runs

type Ran = (Result<Run, RunError>, Vec<Hazard>);

/// At the line's end, without a hazard and without an attachment.
const DONE: Result<Run, RunError> = Ok(Run { hazards: 0, attached: false });

/// Runs the lookup. The places behind its hazards must keep what they held.
fn run(line: &mut [u8], form: Form, tables: &Tables, direction: Direction) -> Ran {
    let (bytes, lengths) = (tables.each.concat(), lengths(&tables.each));
    let Tables { lookup_type, flag, .. } = *tables;
    let mut list = vec![OLD; places(line.len() / form.size(), lengths.len()) + 3];
    let lookup_of_it = Lookup { lookup_type, flag, subtables: &bytes, lengths: &lengths };
    let got = lookup(line, form, lookup_of_it, direction, SCALE, &mut list);
    let count = match got {
        Ok(Run { hazards, .. }) | Err(RunError::Stopped { hazards, .. }) => hazards,
        Err(RunError::Refused(_)) => 0,
    };
    let (put, behind) = list.split_at(count);
    assert!(behind.iter().all(|record| *record == OLD));
    (got, put.iter().map(|record| record.hazard()).collect())
}

fn lengths(each: &[Vec<u8>]) -> Vec<usize> {
    each.iter().map(Vec::len).collect()
}

/// The neighbour that the seen bits give: the next one for a pair, else the last one before.
fn neighbour(line: &[u8], form: Form, lookup_type: u16, i: usize) -> Neighbour {
    let slots: Vec<Slot> = slots_of(line, form).collect();
    let seen = |j: &usize| slots[*j].flags & Slot::SEEN != 0;
    if lookup_type == 2 {
        (i + 1..slots.len()).find(seen).map_or(Neighbour::Missing(slots.len()), Neighbour::Named)
    } else {
        (0..i).rfind(seen).map_or(Neighbour::Missing(0), Neighbour::Named)
    }
}

fn single_call(line: &mut [u8], form: Form, tables: &Tables, table: &[u8], at: At) -> Result<Outcome, Refusal> {
    let near = neighbour(line, form, tables.lookup_type, at.index);
    match tables.lookup_type {
        1 => single(line, form, table, at),
        2 => pair(line, form, table, at, near),
        3 => cursive(line, form, table, at, near, tables.flag),
        4 => mark_base(line, form, table, at),
        5 => mark_ligature(line, form, table, at),
        _ => mark_mark(line, form, table, at, near),
    }
}

/// What the subtables do at one slot: where to go on, and whether one attached.
fn turn(
    line: &mut [u8],
    form: Form,
    tables: &Tables,
    at: At,
    hazards: &mut Vec<Hazard>,
) -> Result<(usize, bool), Refusal> {
    for table in &tables.each {
        match single_call(line, form, tables, table, at)? {
            Outcome::Applied { next, hazards: found, attached } => {
                hazards.extend(found.into_iter().flatten());
                return Ok((next, attached));
            }
            Outcome::Declined { hazard } => hazards.extend(hazard),
        }
    }
    Ok((at.index + 1, false))
}

/// The same lookup by single calls, of which one may be refused with 7.
fn by_single_calls(line: &mut [u8], form: Form, tables: &Tables, direction: Direction) -> Ran {
    let (mut index, mut attachments, mut hazards) = (0, false, vec![]);
    while index < line.len() / form.size() {
        match turn(line, form, tables, At { direction, scale: SCALE, index }, &mut hazards) {
            Ok((next, attached)) => (index, attachments) = (next, attachments || attached),
            Err(refusal) => {
                assert_eq!(refusal, Refusal::Endless);
                return (Err(RunError::Stopped { index, hazards: hazards.len() }), hazards);
            }
        }
    }
    (Ok(Run { hazards: hazards.len(), attached: attachments }), hazards)
}

/// Runs the lookup in both forms, and by single calls; all must do the same. Gives the slots that they leave.
fn run_on(slots: &[Slot], tables: &Tables, direction: Direction) -> (Vec<Slot>, Ran) {
    let [first, second] = FORMS.map(|form| {
        let (mut line, mut other) = (line_in(form, slots), line_in(form, slots));
        let ran = run(&mut line, form, tables, direction);
        assert_eq!(ran, by_single_calls(&mut other, form, tables, direction));
        assert_eq!(line, other);
        (plain(form, &line), ran)
    });
    assert_eq!(first, second);
    first
}

fn ran(attached: bool, hazards: &[Hazard]) -> Ran {
    (Ok(Run { hazards: hazards.len(), attached }), hazards.to_vec())
}

fn to_break(range: Range<usize>) -> Hazard {
    Hazard { kind: HazardKind::UnsafeToBreak, range }
}

fn to_concat(range: Range<usize>) -> Hazard {
    Hazard { kind: HazardKind::UnsafeToConcat, range }
}

// ---- What a run does

#[test]
fn of_several_subtables_the_first_that_applies_wins() {
    let widths = tables(1, &[wider(1, 10), wider(36, 25), wider(36, 100)]);
    let (slots, got) = run_on(&[letter(36), letter(1), letter(7)], &widths, LEFT_TO_RIGHT);
    assert_eq!(got, ran(false, &[]));
    assert_eq!(advances(&slots), [625, 610, 600]);
}

#[test]
fn values_are_scaled() {
    let mut line = line_in(Form::Plain, &[letter(36)]);
    let widths = Lookup { lookup_type: 1, flag: 0, subtables: &wider(36, 25), lengths: &[14] };
    let twice = Scale { em_size: 2000, units_per_em: 1000 };
    assert_eq!(lookup(&mut line, Form::Plain, widths, LEFT_TO_RIGHT, twice, &mut [OLD; 2]), DONE);
    assert_eq!(advances(&plain(Form::Plain, &line)), [650]);
}

#[test]
fn a_pair_jumps_over_unseen_slots() {
    let slots = [letter(1), mark(9), letter(2), letter(1), letter(2)];
    let closer = tables(2, &[kern([1, 2], [4, 0], &[-50])]);
    let (closed, got) = run_on(&slots, &closer, LEFT_TO_RIGHT);
    assert_eq!(got, ran(false, &[to_break(0..3), to_break(3..5)]));
    assert_eq!(advances(&closed), [550, 0, 600, 550, 600]);
    // If it is seen, the mark is the second glyph.
    let in_sight = Slot { flags: Slot::MARK | Slot::SEEN, ..mark(9) };
    let (closed, got) = run_on(&[slots[0], in_sight, slots[2]], &closer, LEFT_TO_RIGHT);
    assert_eq!(got, ran(false, &[to_concat(0..2)]));
    assert_eq!(advances(&closed), [600, 0, 600]);
}

/// With values for its second glyph, a pair uses that glyph up.
#[test]
fn the_subtable_that_applies_says_where_to_go_on() {
    let slots = [letter(1), letter(1), letter(1), letter(1)];
    for (formats, values, expected) in
        [([4, 0], &[-50][..], [550, 550, 550, 600]), ([4, 4], &[-50, 0], [550, 600, 550, 600])]
    {
        let (closed, (got, _)) = run_on(&slots, &tables(2, &[kern([1, 1], formats, values)]), LEFT_TO_RIGHT);
        assert!(got.is_ok());
        assert_eq!(advances(&closed), expected);
    }
}

#[test]
fn hazards_of_declines_are_kept_in_the_order_in_which_they_arise() {
    let pairs = tables(2, &[kern([1, 3], [4, 0], &[-9]), kern([1, 2], [4, 0], &[-50])]);
    let (slots, got) = run_on(&[letter(1), letter(2), letter(1)], &pairs, LEFT_TO_RIGHT);
    assert_eq!(got, ran(false, &[to_concat(0..2), to_break(0..2), to_concat(2..3), to_concat(2..3)]));
    assert_eq!(advances(&slots), [550, 600, 600]);
}

#[test]
fn only_a_cursive_lookup_looks_at_the_flag_and_only_at_one_bit() {
    for (flag, chains) in [(0, [0, -1]), (!LOOKUP_RIGHT_TO_LEFT, [0, -1]), (LOOKUP_RIGHT_TO_LEFT, [1, 0])] {
        let (slots, got) = run_on(&[letter(1); 2], &Tables { flag, ..tables(3, &[join(1)]) }, LEFT_TO_RIGHT);
        assert_eq!(got, ran(true, &[to_concat(0..1), to_break(0..2)]));
        assert_eq!([slots[0].chain, slots[1].chain], chains);
    }
    let [plain, flagged] = [0, u16::MAX]
        .map(|flag| run_on(&[letter(1), mark(2)], &Tables { flag, ..tables(4, &[on(2, 1)]) }, LEFT_TO_RIGHT));
    assert_eq!(plain, flagged);
}

#[test]
fn a_mark_goes_on_the_last_seen_mark_before_it() {
    let in_sight = |glyph| Slot { flags: Slot::MARK | Slot::SEEN, ..mark(glyph) };
    let (slots, got) =
        run_on(&[letter(1), in_sight(60), mark(62), in_sight(61)], &tables(6, &[on(61, 60)]), LEFT_TO_RIGHT);
    assert_eq!(got, ran(true, &[to_break(1..4)]));
    assert_eq!((slots[3].attach_type, slots[3].chain), (Slot::ATTACH_MARK, -2));
}

#[test]
fn the_slot_at_hand_is_tried_unless_it_is_hidden() {
    let unseen = Slot { flags: 0, ..letter(36) };
    let hidden = Slot { glyph: HIDDEN, ..unseen };
    let (slots, _) = run_on(&[letter(36), unseen, hidden], &tables(1, &[wider(36, 25)]), LEFT_TO_RIGHT);
    assert_eq!(advances(&slots), [625, 625, 600]);
}

#[test]
fn a_hidden_glyph_is_passed_over_and_one_that_is_seen_ends_the_search() {
    let unseen = Slot { flags: 0, ..letter(HIDDEN) };
    let closer = tables(2, &[kern([1, 2], [4, 0], &[-50])]);
    let (slots, got) = run_on(&[letter(1), unseen, letter(2)], &closer, LEFT_TO_RIGHT);
    assert_eq!((slots[0].x_advance, got), (550, ran(false, &[to_break(0..3)])));
    let (slots, got) = run_on(&[letter(1), letter(HIDDEN), letter(2)], &closer, LEFT_TO_RIGHT);
    assert_eq!((slots[0].x_advance, got), (600, ran(false, &[to_concat(0..2)])));
    let (slots, got) = run_on(&[letter(1), letter(HIDDEN), letter(1)], &tables(3, &[join(1)]), LEFT_TO_RIGHT);
    assert_eq!((slots[2].chain, got), (0, ran(false, &[to_concat(0..1)])));
}

/// PairPos format 2: behind glyph 1, glyph 2 is of class 1, and all others are of class 0.
#[test]
fn by_classes_a_hidden_glyph_that_is_seen_is_of_class_0() {
    for (value, expected) in [(0, 600), (-7, 593)] {
        let by_class = words(&[2, 20, 4, 0, 26, 34, 1, 2, value, -50, 1, 1, 1, 1, 1, 1, 0, 1, 2, 1, 1]);
        let (slots, _) =
            run_on(&[letter(1), letter(HIDDEN), letter(1), letter(2)], &tables(2, &[by_class]), LEFT_TO_RIGHT);
        assert_eq!(advances(&slots), [expected, 600, 550, 600]);
    }
}

// ---- Where a run stops

/// Slots 2 to 4 are joined, and the earlier ones hang on the later. By another lookup, which skips slot 3, slot 4 hangs
/// on slot 2. Slots 1 and 5 are marks.
fn ring() -> Vec<Slot> {
    let apart = Slot { flags: 0, ..letter(1) };
    let line = [apart, mark(2), letter(1), letter(1), letter(1), mark(2)];
    let turned = Tables { flag: LOOKUP_RIGHT_TO_LEFT, ..tables(3, &[join(1)]) };
    let (mut slots, (got, _)) = run_on(&line, &turned, LEFT_TO_RIGHT);
    assert!(got.is_ok_and(|run| run.attached));
    (slots[3].glyph, slots[3].flags) = (HIDDEN, 0);
    let (mut slots, (got, _)) = run_on(&slots, &tables(3, &[join(1)]), LEFT_TO_RIGHT);
    assert!(got.is_ok_and(|run| run.attached));
    (slots[3].glyph, slots[0].flags, slots[3].flags) = (1, Slot::SEEN, Slot::SEEN);
    assert_eq!([2, 3, 4].map(|i| slots[i].chain), [1, 1, -2]);
    slots
}

#[test]
fn where_a_base_hangs_on_a_ring_the_run_stops() {
    let marks = tables(4, &[on(2, 7), on(2, 1)]);
    let slots = ring();
    let (left, got) = run_on(&slots, &marks, LEFT_TO_RIGHT);
    let hazards = vec![to_concat(0..2), to_break(0..2), to_concat(4..6)];
    assert_eq!(got, (Err(RunError::Stopped { index: 5, hazards: 3 }), hazards));
    let attached = Slot { attach_type: Slot::ATTACH_MARK, chain: -1, x_offset: 290, y_offset: 680, ..mark(2) };
    assert_eq!(left[1], attached, "the mark before the ring is on its base");
    assert_eq!((left[0], &left[2..]), (slots[0], &slots[2..]), "the others are as they were");
}

#[test]
fn a_line_that_stopped_is_finished() {
    let mut line = line_in(Form::Plain, &ring());
    let (got, _) = run(&mut line, Form::Plain, &tables(4, &[on(2, 1)]), LEFT_TO_RIGHT);
    assert_eq!(got, Err(RunError::Stopped { index: 5, hazards: 1 }));
    assert_eq!(finish(&mut line, Form::Plain, LEFT_TO_RIGHT, NESTING_LIMIT, true), Ok(()));
    assert!(slots_of(&line, Form::Plain).all(|slot| slot.chain == 0));
}

// ---- What is refused

/// Runs a lookup over two slots with what is wrong, by the number of a test below, in both forms. A refusal must leave
/// line and list.
fn refusal_of(wrong: impl Fn(usize) -> bool) -> Result<Run, RunError> {
    let [first, second] = FORMS.map(|form| {
        let mut line = line_in(form, &[letter(36), Slot { ligature_id: if wrong(2) { 8 } else { 7 }, ..letter(36) }]);
        line.truncate(line.len() - usize::from(wrong(0)));
        let mut list = [OLD; places(2, 1)];
        let list = &mut list[usize::from(wrong(3))..];
        let scale = Scale { em_size: if wrong(1) { 0 } else { 1000 }, ..SCALE };
        let table = wider(36, 25);
        let table = &table[..table.len() - usize::from(wrong(4))];
        let cut = Lookup { lookup_type: 1, flag: 0, subtables: table, lengths: &[table.len()] };
        let before = line.clone();
        let got = lookup(&mut line, form, cut, LEFT_TO_RIGHT, scale, list);
        assert!(list.iter().all(|record| *record == OLD));
        assert_eq!(line == before, got.is_err());
        got
    });
    assert_eq!(first, second);
    first
}

/// A direction that is out of range, refusal 2, can't be asked for.
#[test]
fn refusals_are_given_in_the_order_1_3_4_8_6() {
    let order = [Refusal::Line, Refusal::Range, Refusal::Slot, Refusal::List, Refusal::Subtable];
    for (number, refusal) in order.into_iter().enumerate() {
        assert_eq!(refusal_of(|test| test == number), Err(RunError::Refused(refusal)), "alone");
        assert_eq!(refusal_of(|test| test >= number), Err(RunError::Refused(refusal)), "and all that come after");
    }
    assert_eq!(order.map(Refusal::number), [1, 3, 4, 8, 6]);
    assert_eq!(refusal_of(|_| false), DONE);
}

/// Runs a lookup of type 1 over so many slots, with a list of so many places.
fn run_with(slots: usize, subtables: &[u8], lengths: &[usize], places: usize) -> Result<Run, RunError> {
    let widths = Lookup { lookup_type: 1, flag: 0, subtables, lengths };
    let mut line = line_in(Form::Plain, &vec![letter(36); slots]);
    lookup(&mut line, Form::Plain, widths, LEFT_TO_RIGHT, SCALE, &mut vec![OLD; places])
}

fn refused(refusal: Refusal) -> Result<Run, RunError> {
    Err(RunError::Refused(refusal))
}

#[test]
fn a_list_has_its_places_or_more_and_not_one_fewer() {
    for (slots, count) in [(1, 1), (3, 2), (5, MOST_SUBTABLES), (MOST_SLOTS, 3)] {
        let (bytes, lengths) = (wider(1, 10).repeat(count), vec![14; count]);
        let enough = places(slots, count);
        assert_eq!(enough, 2 * slots * count);
        assert_eq!(run_with(slots, &bytes, &lengths, enough), DONE);
        assert_eq!(run_with(slots, &bytes, &lengths, enough + 1), DONE);
        assert_eq!(run_with(slots, &bytes, &lengths, enough - 1), refused(Refusal::List));
    }
}

#[test]
fn a_list_that_no_memory_holds_has_the_most_places() {
    const PLACES: usize = places(usize::MAX, MOST_SUBTABLES);
    assert_eq!((PLACES, places(usize::MAX / 2 + 1, 1), places(usize::MAX, 0)), (usize::MAX, usize::MAX, 0));
}

#[test]
fn there_are_1_to_8_subtables_whose_lengths_add_up() {
    for count in 0..=10 {
        let expected = if (1..=8).contains(&count) { DONE } else { refused(Refusal::List) };
        assert_eq!(run_with(2, &wider(36, 1).repeat(count), &vec![14; count], 40), expected, "{count} subtables");
    }
    let two = wider(36, 1).repeat(2);
    assert_eq!(run_with(2, &two, &[14, 14], 40), DONE);
    for lengths in [&[14][..], &[14, 13], &[14, 15], &[14, 14, 1], &[28, usize::MAX, 1], &[usize::MAX, 29]] {
        assert_eq!(run_with(2, &two, lengths, 40), refused(Refusal::List), "{lengths:?}");
    }
}

#[test]
fn each_subtable_sees_its_own_bytes_only() {
    let two = wider(36, 1).repeat(2);
    for lengths in [&[13, 15][..], &[28, 0], &[0, 28], &[14, 14, 0]] {
        assert_eq!(run_with(2, &two, lengths, 40), refused(Refusal::Subtable), "{lengths:?}");
    }
    assert_eq!(run_with(2, &two, &[28], 40), DONE);
}

#[test]
fn a_bad_subtable_is_refused_even_if_it_is_never_reached() {
    let (good, mut long) = (wider(36, 1), wider(36, 1));
    let cut = good[..13].to_vec();
    long.resize(MOST_SUBTABLE + 1, 0);
    for bad in [cut, long.clone()] {
        let lengths = [14, bad.len()];
        assert_eq!(run_with(2, &[&good[..], &bad].concat(), &lengths, 40), refused(Refusal::Subtable));
    }
    long.pop();
    assert_eq!(run_with(2, &[&good[..], &long].concat(), &[14, MOST_SUBTABLE], 40), DONE);
}

#[test]
fn a_type_that_is_not_1_to_6_is_refused() {
    for lookup_type in [0, 7, 8, 9, u16::MAX] {
        let mut line = line_in(Form::Plain, &[letter(36)]);
        let (got, _) = run(&mut line, Form::Plain, &tables(lookup_type, &[wider(36, 1)]), LEFT_TO_RIGHT);
        assert_eq!((got, plain(Form::Plain, &line)), (refused(Refusal::Subtable), vec![letter(36)]));
    }
}

#[test]
fn an_empty_line_is_done_and_its_subtables_are_checked() {
    let table = wider(36, 1);
    assert_eq!(run_with(0, &table, &[14], 0), DONE);
    assert_eq!(run_with(0, &table[..13], &[13], 0), refused(Refusal::Subtable));
    assert_eq!(run_with(0, &table, &[13], 0), refused(Refusal::List));
    assert_eq!(run_with(0, &[], &[], 0), refused(Refusal::List));
}

// ---- Lines of all kinds

/// Numbers that look random, and are the same each time.
struct Numbers(u64);

impl Numbers {
    fn below(&mut self, n: u64) -> u64 {
        self.0 = self.0.wrapping_mul(6_364_136_223_846_793_005).wrapping_add(1_442_695_040_888_963_407);
        (self.0 >> 33) % n
    }

    fn slot(&mut self) -> Slot {
        Slot {
            glyph: self.glyph() as u16,
            ligature_id: self.below(2) as u8,
            component: self.below(2) as u8,
            flags: self.below(8) as u8,
            attach_type: Slot::ATTACH_CURSIVE,
            chain: self.below(3) as i16 - 1,
            y_offset: self.below(90) as i32,
            ..letter(1)
        }
    }

    fn glyph(&mut self) -> i16 {
        1 + self.below(3) as i16
    }

    fn table(&mut self, lookup_type: u16) -> Vec<u8> {
        let [a, b] = [self.glyph(), self.glyph()];
        match lookup_type {
            1 => wider(a, 10),
            2 if self.below(2) == 0 => kern([a, b], [4, 0], &[-50]),
            2 => kern([a, b], [4, 1], &[-50, 30]),
            3 => join(a),
            5 => on_ligature(a, b),
            _ => on(a, b),
        }
    }

    fn tables(&mut self, lookup_type: u16) -> Tables {
        let each: Vec<Vec<u8>> = (0..=self.below(4)).map(|_| self.table(lookup_type)).collect();
        Tables { flag: self.below(2) as u16, ..tables(lookup_type, &each) }
    }
}

#[test]
fn a_run_is_the_single_calls_one_after_another() {
    use Direction::{BottomToTop, LeftToRight, RightToLeft, TopToBottom};
    let mut numbers = Numbers(1);
    let (mut attached, mut stopped) = ([0; 7], [0; 7]);
    for (lookup_type, _) in (1..=6).flat_map(|lookup_type| (0..25).map(move |n| (lookup_type, n))) {
        let slots: Vec<Slot> = (0..numbers.below(12)).map(|_| numbers.slot()).collect();
        let tables = numbers.tables(lookup_type);
        for direction in [LeftToRight, RightToLeft, TopToBottom, BottomToTop] {
            let (_, (got, _)) = run_on(&slots, &tables, direction);
            attached[usize::from(lookup_type)] += u32::from(got.is_ok_and(|run| run.attached));
            stopped[usize::from(lookup_type)] += u32::from(got.is_err());
        }
    }
    assert!(attached[3..].iter().all(|n| *n > 0) && stopped[4..].iter().all(|n| *n > 0), "{attached:?} {stopped:?}");
    assert_eq!((&attached[..3], &stopped[..4]), (&[0; 3][..], &[0; 4][..]));
}
