/* Every call with good input, then where it declines, then where it is refused, by each number from
   1 to 7: on slots of 24 bytes and on slots of 28. Then good input on slots of 26 bytes, which no
   call takes; then the moves. gpos_start, gpos_finish and the moves never decline. Last, kerns that
   are scaled. */
#include "words.h"

enum { LETTER = 1, MARK = 2, ZWNJ = 3, SLOTS = 3 };

/* SinglePos format 1: x advance +25 for the letter. */
static const uint8_t wider[] = {
    /* 0 */ U16(1), U16(8),  /* format, coverage at 8 */
    /* 4 */ U16(4), U16(25), /* value format 4: an x advance */
    /* 8 */ COVERAGE(LETTER),
};

/* PairPos format 1: an x advance for the letter before another. */
#define KERN(value)                                                                                \
    /*  0 */ U16(1), U16(12), /* format, coverage at 12 */                                         \
    /*  4 */ U16(4), U16(0),  /* value formats: an x advance for the first, none for the second */ \
    /*  8 */ U16(1), U16(18), /* one pair set, at 18 */                                            \
    /* 12 */ COVERAGE(LETTER),                                                                     \
    /* 18 */ U16(1), U16(LETTER), U16(value) /* one pair: second glyph, value */

static const uint8_t kern[] = {KERN(-50)};

/* CursivePos format 1: the letter's entry is (30, 5) and its exit (500, 20). */
static const uint8_t joins[] = {
    /*  0 */ U16(1), U16(10),          /* format, coverage at 10 */
    /*  4 */ U16(1), U16(16), U16(22), /* one glyph: entry at 16, exit at 22 */
    /* 10 */ COVERAGE(LETTER),
    /* 16 */ ANCHOR(30, 5),
    /* 22 */ ANCHOR(500, 20),
};

/* MarkBasePos, MarkLigPos and MarkMarkPos, format 1, are alike up to their last array, at 36: marks
   of one class, the mark's anchor at (10, 20), on one glyph. */
#define MARK_ON(glyph)                                                                      \
    /*  0 */ U16(1), U16(12), U16(18), /* format, coverages at 12 and 18 */                 \
    /*  6 */ U16(1), U16(24), U16(36), /* one class, mark array at 24, the other's at 36 */ \
    /* 12 */ COVERAGE(MARK),                                                                \
    /* 18 */ COVERAGE(glyph),                                                               \
    /* 24 */ U16(1), U16(0), U16(6), /* one mark: its class, its anchor 6 farther on */     \
    /* 30 */ ANCHOR(10, 20)

static const uint8_t on_base[] = {
    MARK_ON(LETTER),
    /* 36 */ U16(1), U16(4), /* one base: its anchor 4 farther on */
    /* 40 */ ANCHOR(300, 700),
};

/* The letter is a ligature here, of one component. */
static const uint8_t on_ligature[] = {
    MARK_ON(LETTER),
    /* 36 */ U16(1), U16(4), /* one ligature, 4 farther on */
    /* 40 */ U16(1), U16(4), /* one component: its anchor 4 farther on */
    /* 44 */ ANCHOR(300, 700),
};

/* The mark on another of the same glyph. */
static const uint8_t on_mark[] = {
    MARK_ON(MARK),
    /* 36 */ U16(1), U16(4), /* one earlier mark: its anchor 4 farther on */
    /* 40 */ ANCHOR(15, 250),
};

static size_t size; /* of a slot */
static uint8_t line[SLOTS * GPOS_CLUSTERED_SIZE];
#define LINE line, SLOTS * size, size
#define IN(direction, subtable) LINE, subtable, sizeof subtable, direction, 1000, 1000
#define WITH(subtable) IN(GPOS_DIRECTION_LEFT_TO_RIGHT, subtable)

static uint8_t *slot(size_t i) { return gpos_slot_at(line, size, i); }

/* Two letters and a mark. */
static void fill(void) {
    gpos_slot letter = {.glyph = LETTER, .flags = GPOS_SLOT_SEEN, .x_advance = 600};
    gpos_slot mark = {.glyph = MARK, .flags = GPOS_SLOT_MARK};
    gpos_put_slot(slot(0), letter);
    gpos_put_slot(slot(1), letter);
    gpos_put_slot(slot(2), mark);
}

/* The same, the letters hidden from the search for a mark's base. */
static void hide(void) {
    fill();
    slot(0)[4] = slot(1)[4] = 0;
}

/* A letter, a ZWNJ with these flags, and a mark. */
static void part(uint8_t flags) {
    gpos_slot zwnj = {.glyph = ZWNJ, .flags = flags};
    fill();
    gpos_put_slot(slot(1), zwnj);
}

/* A letter and two marks, which stand on these components of a ligature, if they have its id. */
static void stack(uint8_t id, uint8_t first, uint8_t second) {
    gpos_slot mark = {.glyph = MARK, .ligature_id = id, .flags = GPOS_SLOT_MARK};
    fill();
    mark.component = first;
    gpos_put_slot(slot(1), mark);
    mark.component = second;
    gpos_put_slot(slot(2), mark);
}

/* Two letters, each hanging on the other, and a mark. */
static void tangle(void) {
    gpos_slot letter = {.glyph = LETTER, .flags = GPOS_SLOT_SEEN, .x_advance = 600};
    fill();
    letter.attach_type = GPOS_ATTACH_CURSIVE;
    letter.chain = 1;
    gpos_put_slot(slot(0), letter);
    letter.chain = -1;
    gpos_put_slot(slot(1), letter);
}

static void applied(void) {
    fill();
    say_done("gpos_start", gpos_start(LINE));
    say("gpos_single", gpos_single(WITH(wider), 0));
    say("gpos_pair", gpos_pair(WITH(kern), 0, GPOS_NEIGHBOUR_NAMED, 1));
    say("gpos_cursive", gpos_cursive(WITH(joins), 1, GPOS_NEIGHBOUR_NAMED, 0, 0));
    say("gpos_mark_base", gpos_mark_base(WITH(on_base), 2));
    say("gpos_mark_ligature", gpos_mark_ligature(WITH(on_ligature), 2));
    stack(0, 0, 0);
    say("gpos_mark_mark", gpos_mark_mark(WITH(on_mark), 2, GPOS_NEIGHBOUR_NAMED, 1));
    say_done("gpos_finish", gpos_finish(LINE, GPOS_DIRECTION_LEFT_TO_RIGHT, GPOS_NESTING_LIMIT, 1));
    part(0);
    say("gpos_mark_base past a ZWNJ that isn't seen", gpos_mark_base(WITH(on_base), 2));
}

static void declined(void) {
    fill();
    say("gpos_single at a glyph that isn't covered", gpos_single(WITH(wider), 2));
    say("gpos_pair without a second glyph",
        gpos_pair(WITH(kern), 1, GPOS_NEIGHBOUR_MISSING, SLOTS));
    say("gpos_cursive without a previous glyph",
        gpos_cursive(WITH(joins), 0, GPOS_NEIGHBOUR_MISSING, 0, 0));
    hide();
    say("gpos_mark_base without a base", gpos_mark_base(WITH(on_base), 2));
    say("gpos_mark_ligature without a ligature", gpos_mark_ligature(WITH(on_ligature), 2));
    part(GPOS_SLOT_SEEN);
    say("gpos_mark_base behind a ZWNJ that is seen, and should not be",
        gpos_mark_base(WITH(on_base), 2));
    say("gpos_mark_mark without an earlier glyph",
        gpos_mark_mark(WITH(on_mark), 2, GPOS_NEIGHBOUR_MISSING, 0));
    say("gpos_mark_mark behind a letter",
        gpos_mark_mark(WITH(on_mark), 2, GPOS_NEIGHBOUR_NAMED, 0));
    stack(1, 1, 2);
    say("gpos_mark_mark, the marks on two components of a ligature",
        gpos_mark_mark(WITH(on_mark), 2, GPOS_NEIGHBOUR_NAMED, 1));
}

static void refused(void) {
    fill();
    say_done("gpos_start, the line cut short", gpos_start(line, SLOTS * size - 1, size));
    say("gpos_single, direction 4", gpos_single(IN(4, wider), 0));
    say_done("gpos_finish, nesting limit 65",
             gpos_finish(LINE, GPOS_DIRECTION_LEFT_TO_RIGHT, 65, 1));
    line[2] = 8;
    say("gpos_cursive, a ligature id of 8",
        gpos_cursive(WITH(joins), 1, GPOS_NEIGHBOUR_NAMED, 0, 0));
    fill();
    say("gpos_pair, the second not after the first",
        gpos_pair(WITH(kern), 1, GPOS_NEIGHBOUR_NAMED, 0));
    say("gpos_mark_mark, the earlier not before the mark",
        gpos_mark_mark(WITH(on_mark), 2, GPOS_NEIGHBOUR_NAMED, 2));
    say("gpos_mark_base, no subtable",
        gpos_mark_base(LINE, NULL, 0, GPOS_DIRECTION_LEFT_TO_RIGHT, 1000, 1000, 2));
    tangle();
    say("gpos_mark_ligature, the letters in a ring", gpos_mark_ligature(WITH(on_ligature), 2));
}

static uint8_t plain[SLOTS * GPOS_PLAIN_SIZE];
#define THERE(short_line, short_target) \
    plain, sizeof plain - short_line, line, sizeof line - short_target
#define BACK(short_line, short_target) \
    line, sizeof line - short_line, plain, sizeof plain - short_target

/* Three slots of zeros there and back, then each refusal. */
static void moves(void) {
    say_done("gpos_to_clusters", gpos_to_clusters(THERE(0, 0)));
    say_done("gpos_from_clusters", gpos_from_clusters(BACK(0, 0)));
    say_done("gpos_to_clusters, the line cut short", gpos_to_clusters(THERE(1, 0)));
    say_done("gpos_from_clusters, the line cut short", gpos_from_clusters(BACK(1, 0)));
    say_done("gpos_to_clusters, the target cut short", gpos_to_clusters(THERE(0, 1)));
    say_done("gpos_from_clusters, the target cut short", gpos_from_clusters(BACK(0, 1)));
    gpos_put_cluster(line, 1);
    say_done("gpos_from_clusters, slot 0 with cluster 1", gpos_from_clusters(BACK(0, 0)));
    plain[2] = line[2] = 8;
    say_done("gpos_to_clusters, a ligature id of 8", gpos_to_clusters(THERE(0, 0)));
    say_done("gpos_from_clusters, a ligature id of 8", gpos_from_clusters(BACK(0, 0)));
}

/* At half size 3 and -3 lie half way between two whole numbers. Each goes to the one further from
   zero, so that a kern and its opposite move equally far. */
static void kerned(int value) {
    uint8_t by[] = {KERN(value)};
    fill();
    say("gpos_pair at half size",
        gpos_pair(LINE, by, sizeof by, GPOS_DIRECTION_LEFT_TO_RIGHT, 500, 1000, 0,
                  GPOS_NEIGHBOUR_NAMED, 1));
    printf("    a kern of %d moves by %d\n", value, (int)gpos_get_slot(slot(0)).x_advance - 600);
}

static void calls_with(size_t bytes) {
    size = bytes;
    printf("slots of %zu bytes\n", size);
    applied();
    puts("");
    declined();
    puts("");
    refused();
    puts("");
}

int main(void) {
    calls_with(GPOS_PLAIN_SIZE);
    calls_with(GPOS_CLUSTERED_SIZE);
    puts("slots of 26 bytes, which no call takes");
    size = 26;
    applied();
    puts("\nmoves");
    moves();
    puts("\nkerns");
    size = GPOS_PLAIN_SIZE;
    kerned(3);
    kerned(-3);
    return 0;
}
