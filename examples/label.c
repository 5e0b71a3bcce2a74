/* A label from right to left, from shaped glyphs to drawn places: the Persian word for rooms,
   ghurfa-ha, with a vowel mark, two kerned pairs and a ZWNJ. docs/GUIDE.md explains the code. */
#include "words.h"

#include <stdbool.h>

/* Glyph numbers of a font that is made up here. */
enum { ZWNJ = 3, GHAIN = 10, REH, FEH, HEH_FINAL, HEH_INITIAL, ALEF, DAMMA = 50 };

/* What the label is set in: 1000 units of the font make one em, and 500 of the panel's. */
enum { UNITS_PER_EM = 1000, EM_SIZE = 500 };
static const uint32_t direction = GPOS_DIRECTION_RIGHT_TO_LEFT;

/* ---- What the shaper gives: glyphs in reading order, after substitution */

enum { BASE = 1, LIGATURE = 2, MARK = 3 }; /* classes of GDEF */
enum { KERN = 1, MARKS = 2 };              /* features, a bit each */

static const struct {
    const char *name;
    uint16_t glyph;
    int32_t advance;   /* in units of the font */
    int gdef_class;    /* 0 if GDEF has none */
    bool ignorable;    /* a default ignorable that no substitution has replaced */
    uint32_t features; /* those that are on at this glyph */
    struct {
        uint32_t class, sets; /* GDEF's class of marks, 0 if none; and sets of marks, a bit each */
    } mark;
} glyphs[] = {
    {"ghain", GHAIN, 600, BASE, false, KERN | MARKS, {0, 0}},
    {"damma", DAMMA, 200, MARK, false, KERN | MARKS, {1, 1 << 0}},
    {"reh", REH, 400, BASE, false, KERN | MARKS, {0, 0}},
    {"feh", FEH, 800, BASE, false, KERN | MARKS, {0, 0}},
    {"heh", HEH_FINAL, 500, BASE, false, KERN | MARKS, {0, 0}},
    {"ZWNJ", ZWNJ, 120, BASE, true, KERN | MARKS, {0, 0}},
    {"heh", HEH_INITIAL, 560, BASE, false, KERN | MARKS, {0, 0}},
    {"alef", ALEF, 240, BASE, false, KERN | MARKS, {0, 0}},
};
enum { COUNT = sizeof glyphs / sizeof *glyphs, SIZE = GPOS_PLAIN_SIZE };

static uint8_t line[COUNT * SIZE];

static uint8_t *slot(size_t i) { return gpos_slot_at(line, SIZE, i); }

/* ---- What the font has: lookups, in the order of its lookup list */

/* PairPos format 1. Right to left a pair is moved together by the first glyph's x placement and x
   advance alike, so the value formats are 5 and 0. */
static const uint8_t kern_pairs[] = {
    /*  0 */ U16(1), U16(14),               /* format, coverage at 14 */
    /*  4 */ U16(5), U16(0),                /* value formats */
    /*  8 */ U16(2), U16(22), U16(30),      /* two pair sets, at 22 and 30 */
    /* 14 */ COVERAGE_2(REH, HEH_FINAL),    /* the first glyphs */
    /* 22 */ U16(1), U16(FEH), U16(-60), U16(-60),
    /* 30 */ U16(1), U16(HEH_INITIAL), U16(20), U16(20),
};

/* MarkBasePos format 1, of one class of marks. */
static const uint8_t vowels_on_letters[] = {
    /*  0 */ U16(1), U16(12), U16(18),      /* format, coverages at 12 and 18 */
    /*  6 */ U16(1), U16(24), U16(36),      /* one class, mark array at 24, base array at 36 */
    /* 12 */ COVERAGE(DAMMA),
    /* 18 */ COVERAGE(GHAIN),
    /* 24 */ U16(1), U16(0), U16(6),        /* one mark: its class, its anchor 6 farther on */
    /* 30 */ ANCHOR(100, 0),
    /* 36 */ U16(1), U16(4),                /* one base: its anchor 4 farther on */
    /* 40 */ ANCHOR(320, 700),
};

enum { MOST_SUBTABLES = 1 }; /* of a lookup, in this font */

typedef struct {
    uint32_t type, flag, feature;
    uint32_t mark_set; /* if the flag says that there is one */
    const uint8_t *subtables; /* end to end */
    size_t subtables_len;
    size_t lens[MOST_SUBTABLES]; /* of each subtable; gpos_subtable_len, in a font */
    size_t subtable_count;
} lookup;

static const lookup lookups[] = {
    {2, GPOS_LOOKUP_IGNORE_MARKS, KERN, 0, kern_pairs, sizeof kern_pairs, {sizeof kern_pairs}, 1},
    {4, 0, MARKS, 0, vowels_on_letters, sizeof vowels_on_letters, {sizeof vowels_on_letters}, 1},
};
enum { LOOKUPS = sizeof lookups / sizeof *lookups };

/* ---- Filling the slots */

/* To the nearest whole number, a tie away from zero, as the library rounds. C divides toward zero,
   so half a unit is added with the sign of v. */
static int32_t scaled(int64_t v) {
    int64_t em = UNITS_PER_EM, half = v < 0 ? -em : em;
    return (int32_t)((2 * v * EM_SIZE + half) / (2 * em));
}

static void fill(void) {
    for (size_t i = 0; i < COUNT; i++) {
        gpos_slot s = {0};
        s.glyph = glyphs[i].glyph;
        s.flags = glyphs[i].gdef_class == MARK ? GPOS_SLOT_MARK : 0;
        s.x_advance = scaled(glyphs[i].advance);
        gpos_put_slot(slot(i), s);
    }
}

/* ---- One lookup over the line */

static bool in_feature(const lookup *l, size_t i) { return glyphs[i].features & l->feature; }

/* Whether the lookup's flag chooses marks, by set or else by class, and this is another mark. */
static bool leaves_out(const lookup *l, size_t i) {
    uint32_t class = (l->flag & GPOS_LOOKUP_MARK_ATTACHMENT_CLASS) >> 8;
    if (glyphs[i].gdef_class != MARK) return false;
    if (l->flag & GPOS_LOOKUP_USE_MARK_FILTERING_SET)
        return !(glyphs[i].mark.sets >> l->mark_set & 1);
    return class != 0 && class != glyphs[i].mark.class;
}

/* Whether the lookup's flag skips the glyph. */
static bool skips(const lookup *l, size_t i) {
    switch (glyphs[i].gdef_class) {
    case BASE: return l->flag & GPOS_LOOKUP_IGNORE_BASES;
    case LIGATURE: return l->flag & GPOS_LOOKUP_IGNORE_LIGATURES;
    case MARK: return (l->flag & GPOS_LOOKUP_IGNORE_MARKS) || leaves_out(l, i);
    default: return false;
    }
}

/* Whether the lookup, where it looks for a glyph beside the one at hand, sees this one: it takes
   the first that it sees. (This label has no ZWJ, which is seen in the features mark and mkmk.) */
static bool sees(const lookup *l, size_t i) {
    if (glyphs[i].ignorable) return false;
    switch (l->type) {
    case 4:
    case 5: return glyphs[i].gdef_class != MARK && in_feature(l, i);
    case 6: return !leaves_out(l, i); /* letters too, whatever the flag: the search ends there */
    default: return !skips(l, i);
    }
}

/* A glyph that the lookup isn't for has, while it runs, a number that is no glyph: it isn't applied
   there, and where it is seen it ends a search. But what a mark may be put on keeps its own. */
enum { NO_GLYPH = 0xFFFF };

static bool is_for(const lookup *l, size_t i) {
    if ((l->type == 4 || l->type == 5) && sees(l, i)) return true;
    return in_feature(l, i) && !skips(l, i);
}

static void prepare(const lookup *l) {
    for (size_t i = 0; i < COUNT; i++) {
        gpos_slot s = gpos_get_slot(slot(i));
        s.flags = (uint8_t)((s.flags & ~GPOS_SLOT_SEEN) | (sees(l, i) ? GPOS_SLOT_SEEN : 0));
        s.glyph = is_for(l, i) ? glyphs[i].glyph : NO_GLYPH;
        gpos_put_slot(slot(i), s);
    }
}

/* For lookups of up to so many subtables; the hazards aren't used here. */
static gpos_hazard hazards[GPOS_PLACES(COUNT, MOST_SUBTABLES)];
enum { PLACES = sizeof hazards / sizeof *hazards };

static void apply_lookup(const lookup *l, bool *attached) {
    if (l->type < 1 || l->type > 6) return; /* not in the library */
    prepare(l);
    gpos_run r = gpos_lookup(line, sizeof line, SIZE, l->type, l->flag, l->subtables,
                             l->subtables_len, l->lens, l->subtable_count, direction, EM_SIZE,
                             UNITS_PER_EM, hazards, PLACES);
    bool stopped = r.refusal == GPOS_REFUSED_ENDLESS; /* a bad font; some call may have attached */
    *attached |= r.attached || stopped;
    /* 6 is a bad font too: the lookup is passed over. Others are this program's mistake. */
    if (!stopped && r.refusal != GPOS_REFUSED_SUBTABLE) must("gpos_lookup", r.refusal);
}

/* ---- After the lookups */

static void clear_advances(void) {
    for (size_t i = 0; i < COUNT; i++) {
        gpos_slot s = gpos_get_slot(slot(i));
        s.glyph = glyphs[i].glyph; /* whichever lookup ran last */
        if (glyphs[i].gdef_class == MARK || glyphs[i].ignorable) s.x_advance = s.y_advance = 0;
        gpos_put_slot(slot(i), s);
    }
}

/* A panel would paint here. */
static void draw_glyph(size_t i, int64_t x, int64_t y) {
    printf("%zu %-5s at %4ld %3ld\n", i, glyphs[i].name, (long)x, (long)y);
}

static void draw(void) {
    int64_t x = 0, y = 0; /* the pen: where the label begins, at its left or top */
    bool backward = direction == GPOS_DIRECTION_RIGHT_TO_LEFT ||
                    direction == GPOS_DIRECTION_BOTTOM_TO_TOP;
    for (size_t k = 0; k < COUNT; k++) {
        size_t i = backward ? COUNT - 1 - k : k;
        gpos_slot s = gpos_get_slot(slot(i));
        if (!glyphs[i].ignorable) draw_glyph(i, x + s.x_offset, y + s.y_offset);
        x += s.x_advance;
        y += s.y_advance;
    }
}

int main(void) {
    bool attached = false;
    fill();
    must("gpos_start", gpos_start(line, sizeof line, SIZE));
    for (size_t k = 0; k < LOOKUPS; k++) apply_lookup(&lookups[k], &attached);
    clear_advances();
    must("gpos_finish",
         gpos_finish(line, sizeof line, SIZE, direction, GPOS_NESTING_LIMIT, attached));
    draw();
    return 0;
}
