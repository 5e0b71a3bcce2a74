//! The worked sums of docs/RULES.md, in its order: each as a call with a label that says the sum, and held to its figures.
use crate::call::*;
use crate::groups::{anchor_at, covering, laid, marks_of, of_glyph, on, rows_of, single_by};
use crate::lines::Slot;
use crate::tables::words;

/// A field of a slot, by its place.
#[derive(Clone, Copy)]
enum Field {
    Chain = 6,
    XAdvance = 8,
    YAdvance = 12,
    XOffset = 16,
    YOffset = 20,
}
use Field::*;

/// A sum: its label, the call, and what the rules say of its answer and of the slots afterwards.
pub struct Sum {
    pub label: String,
    pub call: Call,
    answer: &'static str,
    fields: Vec<(usize, Field, i32)>,
}

fn sum(label: &str, call: Call, answer: &'static str, fields: &[(usize, Field, i32)]) -> Sum {
    Sum { label: label.into(), call, answer, fields: fields.to_vec() }
}

fn field(line: &[u8], slot: usize, field: Field) -> i32 {
    let s = &line[24 * slot..];
    let at = field as usize;
    match field {
        Chain => i16::from_be_bytes([s[at], s[at + 1]]).into(),
        _ => i32::from_be_bytes([s[at], s[at + 1], s[at + 2], s[at + 3]]),
    }
}

/// An answer in words.
fn said(a: &Answer) -> String {
    let mut text = match a.status {
        DONE => "done".into(),
        REFUSED => format!("refused {}", a.refusal),
        APPLIED => format!("applied, next {}", a.next),
        _ => "declined".to_string(),
    };
    for [kind, start, end] in &a.hazard[..a.hazards as usize] {
        text += &format!(", {} [{start},{end})", if *kind == 1 { "break" } else { "concat" });
    }
    text
}

impl Sum {
    /// Stops where the answer is not the rules'.
    pub fn check(&self, a: &Answer) {
        assert_eq!(said(a), self.answer, "{}", self.label);
        for (slot, f, want) in &self.fields {
            assert_eq!(field(&a.line, *slot, *f), *want, "{}: slot {slot}, byte {}", self.label, *f as usize);
        }
    }
}

/// Glyph 7, all else 0, adjusted in a direction.
fn single(direction: u32, subtable: Vec<u8>) -> Call {
    Call { direction, ..on(SINGLE, &[of_glyph(7)], subtable) }
}

/// P1, through the x advance.
fn scaled(value: i16, becomes: i32) -> Sum {
    let call = Call { s: 500, ..single(0, single_by(4, &[value])) };
    sum(
        &format!("P1: scaled by s 500 and u 1000, the value {value} is {becomes} (x advance, single adjustment)"),
        call,
        "applied, next 1",
        &[(0, XAdvance, becomes)],
    )
}

/// Glyphs 7 and 8 as a pair, with value records of two formats, one after the other.
fn pair(direction: u32, formats: [u16; 2], values: &[i16]) -> Call {
    let values: Vec<u16> = values.iter().map(|v| *v as u16).collect();
    let set = words(&[&[1, 8], &values[..]].concat());
    let subtable = laid(words(&[1, 0, formats[0], formats[1], 1, 0]), &[(2, covering(&[7])), (10, set)]);
    Call { direction, ..on(PAIR, &[7, 8].map(of_glyph), subtable) }
}

/// P1 to P4. That a record worked shows in a pair's hazard.
fn records() -> Vec<Sum> {
    let unmoved = [(0, YOffset, 0), (0, XAdvance, 0)];
    let offset_alone = [&unmoved[..], &[(0, XOffset, -10), (0, YAdvance, 0)]].concat();
    let nothing = [&unmoved[..], &[(0, XOffset, 0), (0, YAdvance, 0)]].concat();
    let y_advance = [&unmoved[..], &[(0, XOffset, 0), (0, YAdvance, -20)]].concat();
    let p2 = |d| single(d, single_by(5, &[-10, 20]));
    let in_pair = |format, values| pair(2, [format, 0], values);
    vec![
        scaled(3, 2),
        scaled(-3, -2),
        sum(
            "P2: value format 5, record FF F6 00 14, in direction 0 adds -10 to the x offset and 20 to the x advance",
            p2(0),
            "applied, next 1",
            &[(0, XOffset, -10), (0, XAdvance, 20)],
        ),
        sum("P2: the same record in direction 2 adds -10 to the x offset and nothing else", p2(2), "applied, next 1", &offset_alone),
        sum(
            "P2: the same as the first record of a pair in direction 2 has worked: break [0,2)",
            in_pair(5, &[-10, 20]),
            "applied, next 1, break [0,2)",
            &offset_alone,
        ),
        sum("P3: the value 20 by format 4 changes no field in direction 2", single(2, single_by(4, &[20])), "applied, next 1", &nothing),
        sum(
            "P3: the same as the first record of a pair in direction 2 has not worked: concatenate [0,2)",
            in_pair(4, &[20]),
            "applied, next 1, concat [0,2)",
            &nothing,
        ),
        sum("P4: the value 20 by format 8 adds -20 to the y advance in direction 2", single(2, single_by(8, &[20])), "applied, next 1", &y_advance),
    ]
}

/// P5 and P6.
fn pairs() -> Vec<Sum> {
    let less_fifty = [(0, XAdvance, -50), (1, XAdvance, 0)];
    let both = pair(0, [4, 4], &[-50, 0]);
    vec![
        sum(
            "P5: slots 0 and 1 are a pair with value formats 4 and 0 and the value -50, in direction 0: applied, next 1, break [0,2)",
            pair(0, [4, 0], &[-50]),
            "applied, next 1, break [0,2)",
            &less_fifty,
        ),
        sum(
            "P5: the same with the value 0: applied too, next 1, but concatenate [0,2)",
            pair(0, [4, 0], &[0]),
            "applied, next 1, concat [0,2)",
            &[(0, XAdvance, 0)],
        ),
        sum(
            "P6: the same with value formats 4 and 4 and the values -50 and 0, the line ending with slot 1: applied, next 2, break [0,2) and break [0,3)",
            both,
            "applied, next 2, break [0,2), break [0,3)",
            &less_fifty,
        ),
    ]
}

/// Glyph 2, the last, is joined to glyph 1 before it: exit (500,20), entry (30,5).
fn cursive(slots: &[Slot], lookup_flag: u32) -> Call {
    let tables = [(2, covering(&[1, 2])), (8, anchor_at(500, 20)), (10, anchor_at(30, 5))];
    Call { lookup_flag, ..on(CURSIVE, slots, laid(words(&[1, 0, 2, 0, 0, 0, 0]), &tables)) }
}

/// P7 and P8.
fn joined() -> Vec<Sum> {
    let letter = |glyph, kind, chain, y| Slot { kind, chain, measures: [600, 0, 0, y], ..of_glyph(glyph) };
    let p7 = "P7: slot 1 is joined to slot 0 in direction 0, RIGHT_TO_LEFT not set, by the exit anchor (500,20) and the entry anchor (30,5); both have x \
              advance 600 and no offsets. Slot 0 then has x advance 500; slot 1 has x advance 570, offsets -30, 15 and chain -1";
    let p8 = "P8: of three slots slot 1 hangs on slot 0, cursive, by chain -1 with y offset 8, and the others on nothing. Slot 2 is joined to slot 1 in \
              direction 0 with RIGHT_TO_LEFT, so that 1 hangs on 2. Slot 0 then has y offset -8 and chain 1";
    let p7_fields = [(0, XAdvance, 500), (1, XAdvance, 570), (1, XOffset, -30), (1, YOffset, 15), (1, Chain, -1)];
    let two = [letter(1, 0, 0, 0), letter(2, 0, 0, 0)];
    let three = [letter(1, 0, 0, 0), letter(1, 2, -1, 8), letter(2, 0, 0, 0)];
    vec![
        sum(p7, cursive(&two, 0), "applied, next 2, break [0,2)", &p7_fields),
        sum(p8, cursive(&three, 1), "applied, next 3, break [1,3)", &[(0, YOffset, -8), (0, Chain, 1)]),
    ]
}

/// Glyph 2 attached to glyph 1: a mark anchor, and the base's or the components'.
fn attached(kind: usize, slots: &[Slot], mark: (i16, i16), bases: Vec<u8>) -> Call {
    let tables = [(2, covering(&[2])), (4, covering(&[1])), (8, marks_of(&[(0, mark.0, mark.1)])), (10, bases)];
    on(kind, slots, laid(words(&[1, 0, 0, 1, 0, 0]), &tables))
}

/// P9: the components' anchors tell them apart.
fn component(mark_component: u8, index: i32) -> Sum {
    let rows = rows_of(&[&[(100, 10)], &[(200, 20)], &[(300, 30)]]);
    let slots = [Slot { ligature_id: 1, flags: 1, ..of_glyph(1) }, Slot { ligature_id: 1, component: mark_component, flags: 2, ..of_glyph(2) }];
    let call = attached(MARK_LIGATURE, &slots, (0, 0), laid(words(&[1, 0]), &[(2, rows)]));
    let (x, y) = (100 * (index + 1), 10 * (index + 1));
    let label = format!(
        "P9: a ligature of three components with anchors (100,10), (200,20), (300,30), and a mark with its id and the anchor (0,0): with component \
         {mark_component} the mark goes to index {index}: offsets {x}, {y}"
    );
    sum(&label, call, "applied, next 2, break [0,2)", &[(1, XOffset, x), (1, YOffset, y)])
}

/// Slots of a type with these chains and y offsets, finished.
fn finish(limit: u32, slots: &[(u8, i16, i32)]) -> Call {
    let slots: Vec<Slot> = slots.iter().map(|(kind, chain, y)| Slot { kind: *kind, chain: *chain, measures: [0, 0, 0, *y], ..Slot::default() }).collect();
    Call { limit, ..on(FINISH, &slots, vec![]) }
}

/// P10 and P11.
fn finished() -> Vec<Sum> {
    let ys = |y: &[i32]| y.iter().enumerate().flat_map(|(i, y)| [(i, YOffset, *y), (i, Chain, 0)]).collect::<Vec<_>>();
    let p10 = "P10: two slots, both cursive, hang on each other and have y offsets 5 and 7; finished in direction 0 with limit 64 they have 17 and 12";
    let p11_by_1 =
        "P11: slot 0 hangs on slot 1 and slot 1 on slot 2, both cursive, with y offsets 1, 2, 4; finished in direction 0 with limit 1 they have 3, 2, 4";
    let p11 = [(2, 1, 1), (2, 1, 2), (0, 0, 4)];
    vec![
        sum(p10, finish(64, &[(2, 1, 5), (2, -1, 7)]), "done", &ys(&[17, 12])),
        sum(p11_by_1, finish(1, &p11), "done", &ys(&[3, 2, 4])),
        sum("P11: the same line finished with limit 2 has 7, 6, 4", finish(2, &p11), "done", &ys(&[7, 6, 4])),
    ]
}

/// Two letters that hang on each other by a type, and a mark that is attached to the second: anchors (300,700) and (10,20).
fn on_loop(kind: u8) -> Call {
    let letter = |chain| Slot { flags: 1, kind, chain, ..of_glyph(1) };
    attached(MARK_BASE, &[letter(1), letter(-1), Slot { flags: 2, ..of_glyph(2) }], (10, 20), rows_of(&[&[(300, 700)]]))
}

fn on_loops() -> Vec<Sum> {
    let endless = "Loop: two slots as in P10, all offsets 0, and a mark in slot 2 with slot 1 for its base; anchors (300,700) and (10,20): refused with 7";
    let marks = "Loop: the same by type 1, which the walk does not follow (a sum of our own): attached, offsets 290, 680";
    vec![
        sum(endless, on_loop(2), "refused 7", &[]),
        sum(marks, on_loop(1), "applied, next 3, break [1,3)", &[(2, XOffset, 290), (2, YOffset, 680), (2, Chain, -1)]),
    ]
}

/// The limits of a line and of nesting.
fn limits() -> Vec<Sum> {
    let marks = |n: usize| on(START, &vec![Slot { kind: 1, chain: -1, ..Slot::default() }; n], vec![]);
    let one = |limit| finish(limit, &[(0, 0, 0)]);
    vec![
        sum("Length: 24,576 bytes are started", marks(1024), "done", &[(0, Chain, 0), (1023, Chain, 0)]),
        sum("Length: 24,600 bytes are refused with 1", marks(1025), "refused 1", &[(0, Chain, -1), (1024, Chain, -1)]),
        sum("Limit: one slot is finished with limit 64", one(64), "done", &[]),
        sum("Limit: with limit 65 it is refused with 3", one(65), "refused 3", &[]),
    ]
}

/// The finishing program's example: slots in which all is 0 but what is given here.
fn example() -> Sum {
    let label = "Example of the finishing program, direction 0, limit 64: slot 0 has x advance 600; slots 1 and 2 are marks, type 1, chain -1, with the \
                 offsets 250, 40 and 10, 700. These become -350, 40 and -340, 700";
    let mark = |x, y| Slot { kind: 1, chain: -1, measures: [0, 0, x, y], ..Slot::default() };
    let slots = [Slot { measures: [600, 0, 0, 0], ..Slot::default() }, mark(250, 40), mark(10, 700)];
    let after = [(0, XAdvance, 600), (0, XOffset, 0), (1, XOffset, -350), (1, YOffset, 40), (2, XOffset, -340), (2, YOffset, 700)];
    sum(label, on(FINISH, &slots, vec![]), "done", &after)
}

/// All of them, in the order of the rules.
pub fn sums() -> Vec<Sum> {
    let mut all = records();
    all.extend(pairs());
    all.extend(joined());
    all.extend([(2, 1), (5, 2), (0, 2)].map(|(mark, index)| component(mark, index)));
    all.extend(finished());
    all.extend(on_loops());
    all.extend(limits());
    all.push(example());
    all
}
