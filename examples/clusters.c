/* A label whose slots say which letter each glyph came from: the word kalam in Arabic letters,
   right to left, with a ligature and two vowel marks. */
#include "words.h"

#include <string.h>

enum { SLOTS = 5, SIZE = GPOS_CLUSTERED_SIZE, KAF = 36, MEEM = 37, LAM_ALEF = 300, FATHA = 501 };

static const char *const text[] = {"kaf", "fatha", "lam", "fatha", "alef", "meem"};

/* Each glyph with its cluster, the index of its letter in the text: a mark has that of the letter
   it stands on, the ligature that of its first letter. The second fatha stood on the lam, which is
   the first of the ligature's two letters: so it has the ligature's id, and component 1. */
static const struct {
    gpos_slot slot;
    uint32_t cluster;
} glyphs[SLOTS] = {
    {{.glyph = KAF, .flags = GPOS_SLOT_SEEN, .x_advance = 800}, 0},
    {{.glyph = FATHA, .flags = GPOS_SLOT_MARK}, 0},
    {{.glyph = LAM_ALEF, .ligature_id = 1, .flags = GPOS_SLOT_SEEN, .x_advance = 600}, 2},
    {{.glyph = FATHA, .ligature_id = 1, .component = 1, .flags = GPOS_SLOT_MARK}, 2},
    {{.glyph = MEEM, .flags = GPOS_SLOT_SEEN, .x_advance = 500}, 5},
};

/* MarkBasePos format 1: the mark's anchor goes to the base's. */
static const uint8_t on_base[] = {
    /*  0 */ U16(1), U16(12), U16(18), /* format, coverages at 12 and 18 */
    /*  6 */ U16(1), U16(24), U16(36), /* one class, mark array at 24, base array at 36 */
    /* 12 */ COVERAGE(FATHA),
    /* 18 */ COVERAGE(KAF),
    /* 24 */ U16(1), U16(0), U16(6), /* one mark: its class, its anchor 6 farther on */
    /* 30 */ ANCHOR(150, 0),
    /* 36 */ U16(1), U16(4), /* one base: its anchor 4 farther on */
    /* 40 */ ANCHOR(400, 700),
};

/* MarkLigPos format 1: it goes to that of its component, the lam or the alef. */
static const uint8_t on_ligature[] = {
    /*  0 */ U16(1), U16(12), U16(18), /* format, coverages at 12 and 18 */
    /*  6 */ U16(1), U16(24), U16(36), /* one class, mark array at 24, ligature array at 36 */
    /* 12 */ COVERAGE(FATHA),
    /* 18 */ COVERAGE(LAM_ALEF),
    /* 24 */ U16(1), U16(0), U16(6), /* one mark: its class, its anchor 6 farther on */
    /* 30 */ ANCHOR(150, 0),
    /* 36 */ U16(1), U16(4),          /* one ligature, 4 farther on */
    /* 40 */ U16(2), U16(6), U16(12), /* two components: anchors 6 and 12 farther on */
    /* 46 */ ANCHOR(450, 800),
    /* 52 */ ANCHOR(120, 750),
};

static uint8_t line[SLOTS * SIZE];
static const uint32_t direction = GPOS_DIRECTION_RIGHT_TO_LEFT;
#define WITH(subtable) line, sizeof line, SIZE, subtable, sizeof subtable, direction, 1000, 1000

/* Stops where a mark isn't attached. */
static void attached(const char *call, gpos_answer a) {
    must(call, a.refusal);
    say(call, a);
    if (!a.attached) exit(1);
}

/* In the order of drawing: right to left the last slot is leftmost, where the pen starts. */
static void show(void) {
    long pen = 0;
    puts("slot  glyph  letter  drawn at");
    for (size_t i = SLOTS; i-- > 0;) {
        const uint8_t *at = gpos_slot_at(line, SIZE, i);
        gpos_slot slot = gpos_get_slot(at);
        uint32_t letter = gpos_get_cluster(at);
        printf("%4zu  %5d  %u %-4s  %4ld %3d\n", i, slot.glyph, (unsigned)letter, text[letter],
               pen + slot.x_offset, slot.y_offset);
        pen += slot.x_advance;
    }
}

/* Letters aren't slot numbers, so no move drops them. Slots copied one by one are without them. */
static void drop_clusters(void) {
    uint8_t plain[SLOTS * GPOS_PLAIN_SIZE], back[sizeof plain];
    say_done("gpos_from_clusters, the clusters being letters",
             gpos_from_clusters(line, sizeof line, plain, sizeof plain));
    for (size_t i = 0; i < SLOTS; i++)
        gpos_put_slot(gpos_slot_at(plain, GPOS_PLAIN_SIZE, i),
                      gpos_get_slot(gpos_slot_at(line, SIZE, i)));
    must("gpos_to_clusters", gpos_to_clusters(plain, sizeof plain, line, sizeof line));
    must("gpos_from_clusters", gpos_from_clusters(line, sizeof line, back, sizeof back));
    puts(memcmp(back, plain, sizeof plain) == 0 ? "there and back: the same bytes"
                                                : "there and back: other bytes");
}

int main(void) {
    for (size_t i = 0; i < SLOTS; i++) {
        uint8_t *at = gpos_slot_at(line, SIZE, i);
        gpos_put_slot(at, glyphs[i].slot);
        gpos_put_cluster(at, glyphs[i].cluster);
    }
    must("gpos_start", gpos_start(line, sizeof line, SIZE));
    attached("gpos_mark_base", gpos_mark_base(WITH(on_base), 1));
    attached("gpos_mark_ligature", gpos_mark_ligature(WITH(on_ligature), 3));
    must("gpos_finish",
         gpos_finish(line, sizeof line, SIZE, direction, GPOS_NESTING_LIMIT, 1));
    show();
    drop_clusters();
    return 0;
}
