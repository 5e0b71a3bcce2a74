/* Lookups run over a line by gpos_lookup: subtables of which the second wins, a pair past a glyph
   that isn't seen, marks, the hazards of each, a run that stops; then what is refused, and how a
   subtable is tested when the font is loaded. */
#include "words.h"

enum { LETTER = 1, MARK = 2, ZWNJ = 3, OTHER = 4, SLOTS = 4, SIZE = GPOS_PLAIN_SIZE, EM = 1000 };

/* Two PairPos subtables of format 1, end to end: the first kerns the letter before another glyph,
   the second before itself. */
#define KERN(second, value)                                              \
    /*  0 */ U16(1), U16(12), U16(4), U16(0), /* coverage at 12; formats */ \
    /*  8 */ U16(1), U16(18),                 /* one pair set, at 18 */     \
    /* 12 */ COVERAGE(LETTER),                                           \
    /* 18 */ U16(1), U16(second), U16(value)
static const uint8_t kerns[] = {KERN(OTHER, -30), KERN(LETTER, -50)};
static const size_t kern_lens[] = {24, 24};

/* MarkBasePos format 1: the mark on the letter. */
static const uint8_t on_base[] = {
    /*  0 */ U16(1), U16(12), U16(18), U16(1), U16(24), U16(36),
    /* 12 */ COVERAGE(MARK),
    /* 18 */ COVERAGE(LETTER),
    /* 24 */ U16(1), U16(0), U16(6), ANCHOR(10, 20),
    /* 36 */ U16(1), U16(4), ANCHOR(300, 700),
};
static const size_t on_base_lens[] = {sizeof on_base};

static uint8_t line[SLOTS * SIZE];
static gpos_hazard list[GPOS_PLACES(SLOTS, 2)];
enum { PLACES = sizeof list / sizeof *list };

static uint8_t *slot(size_t i) { return gpos_slot_at(line, SIZE, i); }

static void put(size_t i, uint16_t glyph, uint8_t flags, int32_t advance) {
    gpos_slot s = {.glyph = glyph, .flags = flags, .x_advance = advance};
    gpos_put_slot(slot(i), s);
}

/* A letter, a ZWNJ, another letter and a mark. A lookup of pairs sees letters and marks, one of
   marks the letters. */
static void fill(uint8_t mark_seen) {
    put(0, LETTER, GPOS_SLOT_SEEN, 600);
    put(1, ZWNJ, 0, 0);
    put(2, LETTER, GPOS_SLOT_SEEN, 600);
    put(3, MARK, (uint8_t)(GPOS_SLOT_MARK | mark_seen), 0);
}

/* The letters in a ring: what hangs on one of them has no place. */
static void tangle(void) {
    gpos_slot s = gpos_get_slot(slot(0));
    s.attach_type = GPOS_ATTACH_CURSIVE;
    s.chain = 2;
    gpos_put_slot(slot(0), s);
    s.chain = -2;
    gpos_put_slot(slot(2), s);
}

static void say_run(const char *what, gpos_run r) {
    if (r.refusal != GPOS_DONE && r.refusal != GPOS_REFUSED_ENDLESS) {
        say_refused(stdout, what, r.refusal);
        return;
    }
    printf("%s: ", what);
    if (r.refusal == GPOS_DONE)
        printf("done%s", r.attached ? ", attached" : "");
    else
        printf("stopped at %zu", r.index);
    for (size_t k = 0; k < r.count; k++)
        printf(", %s [%zu, %zu)", list[k].kind == GPOS_UNSAFE_TO_BREAK ? "break" : "concat",
               list[k].start, list[k].end);
    puts("");
}

#define RUN(slots, type, subtables, lens, count, places)                                     \
    gpos_lookup(line, (slots) * SIZE, SIZE, type, 0, subtables, sizeof subtables, lens, count, \
                GPOS_DIRECTION_LEFT_TO_RIGHT, EM, EM, list, places)

/* Whether a subtable is good: a lookup of it alone, on no slots. */
static uint32_t test(uint32_t type, const uint8_t *bytes, size_t len) {
    return gpos_lookup(NULL, 0, SIZE, type, 0, bytes, len, &len, 1, 0, EM, EM, NULL, 0).refusal;
}

static void refused(void) {
    static const size_t short_lens[] = {24, 23};
    say_run("no subtable", RUN(SLOTS, 2, kerns, kern_lens, 0, PLACES));
    say_run("lengths that don't add up", RUN(SLOTS, 2, kerns, short_lens, 2, PLACES));
    say_run("a list one place too short", RUN(SLOTS, 2, kerns, kern_lens, 2, PLACES - 1));
    say_run("lookup type 7", RUN(SLOTS, 7, kerns, kern_lens, 2, PLACES));
    say_run("the same, and too short a list", RUN(SLOTS, 7, kerns, kern_lens, 2, PLACES - 1));
    say_done("a good subtable, tested", test(2, kerns, 24));
    say_done("a cut one", test(2, kerns, 9));
}

int main(void) {
    fill(GPOS_SLOT_SEEN);
    say_run("kerning", RUN(SLOTS, 2, kerns, kern_lens, 2, PLACES));
    printf("    the first letter's advance is %d\n", gpos_get_slot(slot(0)).x_advance);
    fill(0);
    say_run("marks", RUN(SLOTS, 4, on_base, on_base_lens, 1, PLACES));
    printf("    the mark hangs %d slot from its letter\n", -gpos_get_slot(slot(3)).chain);
    tangle();
    say_run("marks, the letters in a ring", RUN(SLOTS, 4, on_base, on_base_lens, 1, PLACES));
    say_run("an empty line", RUN(0, 2, kerns, kern_lens, 2, 0));
    refused();
    return 0;
}
