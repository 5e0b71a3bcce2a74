/* A label with stacked marks, worked by hand: chan, Thai for a floor (storey) of a house. The tone
   mark, mai tho, stands on the vowel mark, mai han akat, and that on the consonant, cho chang; then
   comes another consonant, no nu. First by mark to base alone, which leaves the tone mark over the
   vowel mark; then by mark to mark too, which stacks it. docs/GUIDE.md, Marks on marks, says what
   is general in it. */
#include "words.h"

#include <stdbool.h>

/* Glyph numbers of a font that is made up here; 1000 units of it make one em, and so do 1000 of the
   panel's: the font's numbers stay as they are. */
enum { CHO_CHANG = 20, NO_NU, MAI_HAN_AKAT = 60, MAI_THO, EM = 1000 };

/* The glyphs in reading order. None is part of a ligature, so ligature id and component are 0. The
   marks have advance 0 in this font; elsewhere it is set to 0 before finishing. Bottom and top are
   where the outline begins and ends on the y axis. */
static const struct {
    const char *name;
    uint16_t glyph;
    bool mark;
    int32_t advance, bottom, top;
} glyphs[] = {
    {"cho chang", CHO_CHANG, false, 640, 0, 580},
    {"mai han akat", MAI_HAN_AKAT, true, 0, 560, 780},
    {"mai tho", MAI_THO, true, 0, 560, 800},
    {"no nu", NO_NU, false, 620, 0, 560},
};
enum { COUNT = sizeof glyphs / sizeof *glyphs, SIZE = GPOS_PLAIN_SIZE };

/* Lookup type 4, flag 0: MarkBasePos format 1. Each mark has its anchor at its lower end, and left
   of its origin, since marks are drawn back over the letter. */
static const uint8_t on_consonant[] = {
    /*  0 */ U16(1), U16(12), U16(20),                 /* format, coverages at 12 and 20 */
    /*  6 */ U16(1), U16(26), U16(48),                 /* one class, arrays at 26 and 48 */
    /* 12 */ COVERAGE_2(MAI_HAN_AKAT, MAI_THO),        /* the marks */
    /* 20 */ COVERAGE(CHO_CHANG),                      /* the bases */
    /* 26 */ U16(2), U16(0), U16(10), U16(0), U16(16), /* two marks: class, anchor from 26 on */
    /* 36 */ ANCHOR(-150, 560),                        /* mai han akat */
    /* 42 */ ANCHOR(-140, 560),                        /* mai tho */
    /* 48 */ U16(1), U16(4),                           /* one base: its anchor from 48 on */
    /* 52 */ ANCHOR(500, 600),                         /* cho chang */
};

/* Lookup type 6, flag 0: MarkMarkPos format 1. The marks have the same anchors, and one of them has
   another at its upper end, for a mark on it. */
static const uint8_t on_mark[] = {
    /*  0 */ U16(1), U16(12), U16(20),                 /* format, coverages at 12 and 20 */
    /*  6 */ U16(1), U16(26), U16(48),                 /* one class, arrays at 26 and 48 */
    /* 12 */ COVERAGE_2(MAI_HAN_AKAT, MAI_THO),        /* the marks */
    /* 20 */ COVERAGE(MAI_HAN_AKAT),                   /* the earlier marks */
    /* 26 */ U16(2), U16(0), U16(10), U16(0), U16(16), /* two marks: class, anchor from 26 on */
    /* 36 */ ANCHOR(-150, 560),                        /* mai han akat */
    /* 42 */ ANCHOR(-140, 560),                        /* mai tho */
    /* 48 */ U16(1), U16(4),                           /* one earlier mark: its anchor from 48 on */
    /* 52 */ ANCHOR(-130, 790),                        /* mai han akat */
};

static uint8_t line[COUNT * SIZE];
static const uint32_t direction = GPOS_DIRECTION_LEFT_TO_RIGHT;
#define WITH(subtable) line, sizeof line, SIZE, subtable, sizeof subtable, direction, EM, EM

static uint8_t *slot(size_t i) { return gpos_slot_at(line, SIZE, i); }

static void fill(void) {
    for (size_t i = 0; i < COUNT; i++) {
        gpos_slot s = {0};
        s.glyph = glyphs[i].glyph;
        s.flags = glyphs[i].mark ? GPOS_SLOT_MARK : 0;
        s.x_advance = glyphs[i].advance;
        gpos_put_slot(slot(i), s);
    }
}

/* What a lookup sees where it looks back from a mark. Type 4 looks for a letter, past other marks.
   Type 6 looks for a mark, and sees letters too: at a letter it ends, and there is no mark.
   (Neither sees default ignorables, nor type 6 the marks that its flag leaves out: none here.) */
static bool sees(int type, size_t i) { return type == 6 || !glyphs[i].mark; }

static void set_seen(int type) {
    for (size_t i = 0; i < COUNT; i++) {
        gpos_slot s = gpos_get_slot(slot(i));
        s.flags = (uint8_t)((s.flags & ~GPOS_SLOT_SEEN) | (sees(type, i) ? GPOS_SLOT_SEEN : 0));
        gpos_put_slot(slot(i), s);
    }
}

/* Puts the mark at slot i on the nearest glyph before it that is seen, if that is a mark.
   gpos_mark_base looks for that glyph itself, by the seen bits; gpos_mark_mark is told its slot. */
static gpos_answer stack(size_t i) {
    size_t j = i;
    while (j > 0 && !(gpos_get_slot(slot(j - 1)).flags & GPOS_SLOT_SEEN)) j--;
    if (j == 0) return gpos_mark_mark(WITH(on_mark), i, GPOS_NEIGHBOUR_MISSING, 0);
    return gpos_mark_mark(WITH(on_mark), i, GPOS_NEIGHBOUR_NAMED, j - 1);
}

/* Stops where a call is refused. */
static void tried(size_t i, const char *call, gpos_answer a) {
    must(call, a.refusal);
    printf("at %zu, ", i);
    say(call, a);
}

static void show_slots(void) {
    for (size_t i = 0; i < COUNT; i++) {
        gpos_slot s = gpos_get_slot(slot(i));
        printf("%zu %-12s type %d, chain %2d, offset %3d %3d\n", i, glyphs[i].name, s.attach_type,
               s.chain, s.x_offset, s.y_offset);
    }
}

static void draw(void) {
    long x = 0; /* the pen, which stays at height 0 */
    for (size_t i = 0; i < COUNT; i++) {
        gpos_slot s = gpos_get_slot(slot(i));
        printf("%zu %-12s at %3ld %3d, from %3d up to %4d\n", i, glyphs[i].name, x + s.x_offset,
               s.y_offset, glyphs[i].bottom + s.y_offset, glyphs[i].top + s.y_offset);
        x += s.x_advance;
    }
}

/* The sums. On cho chang, at slot 0, a mark's offset is the base's anchor less its own:
       mai han akat   500 + 150 = 650    600 - 560 = 40          chain 0 - 1 = -1
       mai tho        500 + 140 = 640    600 - 560 = 40          chain 0 - 2 = -2
   On mai han akat, at slot 1, it is the same, and the y offset of that one is added:
       mai tho        -130 + 140 = 10    790 - 560 + 40 = 270    chain 1 - 2 = -1
   Finishing adds the parent's x offset, and takes off the advances from the parent up to the mark:
       mai han akat   650 + 0 - 640 = 10
       mai tho        640 + 0 - 640 - 0 = 0 on cho chang, 10 + 10 - 0 = 20 on mai han akat
   Both are drawn with the pen at 640, behind cho chang: mai han akat at 650, 40; mai tho at 640,
   40, or stacked at 660, 270. Mai han akat then reaches up to 780 + 40 = 820. Mai tho begins at
   560 + 40 = 600, so that one lies over the other; stacked, it begins above, at 560 + 270 = 830. */
static void label(bool stacked) {
    fill();
    must("gpos_start", gpos_start(line, sizeof line, SIZE));
    set_seen(4);
    for (size_t i = 1; i <= 2; i++)
        tried(i, "gpos_mark_base", gpos_mark_base(WITH(on_consonant), i));
    if (stacked) {
        set_seen(6);
        for (size_t i = 1; i <= 2; i++) tried(i, "gpos_mark_mark", stack(i));
    }
    show_slots();
    must("gpos_finish",
         gpos_finish(line, sizeof line, SIZE, direction, GPOS_NESTING_LIMIT, 1));
    puts("drawn");
    draw();
}

int main(void) {
    puts("by mark to base alone");
    label(false);
    puts("\nby mark to base, then mark to mark");
    label(true);
    return 0;
}
