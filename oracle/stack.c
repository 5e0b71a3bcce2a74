/* Measures how much of the stack the calls take: a call is made on memory of its own, painted before, and what is no longer as painted was used. Two of them call
   themselves; with a word it makes their deepest calls on the stack it was started with. */
#include "gpos.h"

#include <stdio.h>
#include <string.h>

enum { SLOTS = 1024, SHORT = 24, LONG = 28, PAINT = 0xA5, ROOM = 1 << 20, LIMIT = 64 };
static uint8_t line[SLOTS * LONG], moved[SLOTS * LONG], room[ROOM] __attribute__((aligned(16)));
/* Volatile, since the compiler doesn't see that the calls read them. The size is a slot's bytes. */
static volatile size_t slots, size;
static volatile uint32_t limit;

/* Slot k is cursive, with this chain, a y offset of k and, in slots of 28, its cluster. */
static void put(size_t k, int chain) {
    uint8_t *s = memset(line + size * k, 0, size);
    s[1] = 1, s[5] = 2;
    s[6] = (uint8_t)(chain >> 8), s[7] = (uint8_t)chain;
    s[22] = s[size - 2] = (uint8_t)(k >> 8), s[23] = s[size - 1] = (uint8_t)k;
}

static int is(size_t k, int chain, int y) {
    const uint8_t *s = line + size * k;
    return (int16_t)(s[6] << 8 | s[7]) == chain && (int32_t)((uint32_t)s[20] << 24 | (uint32_t)s[21] << 16 | (uint32_t)s[22] << 8 | s[23]) == y;
}

/* CursivePos: glyph 1 with an entry and an exit at (0, 0). */
static const uint8_t joins[] = {0, 1, 0, 10, 0, 1, 0, 16, 0, 16, 0, 1, 0, 1, 0, 1, 0, 1, 0, 0, 0, 0};

/* The last slot, of a loop that leads through every slot but the first, is joined to the first. */
static void reversal(void) { gpos_cursive(line, size * slots, size, joins, sizeof joins, 0, 1000, 1000, slots - 1, 0, 0, 0); }

static void finishing(void) { gpos_finish(line, size * slots, size, 0, limit, 1); }

/* Each slot hangs on the one before, slot 1 on the last, slot 0 on nothing. */
static void loop_down(void) {
    for (size_t k = 0; k < slots; k++) put(k, k == 0 ? 0 : k == 1 ? (int)slots - 2 : -1);
}

/* Each slot hangs on the one after. */
static void chain_up(void) {
    for (size_t k = 0; k < slots; k++) put(k, k + 1 < slots ? 1 : 0);
}

/* Is every slot between hung onto the one after, with its child's offset negated, and the last onto the first? The last slot's offset was that of slot 1, negated, when
   it was read. */
static int reversed(void) {
    for (size_t k = 1; k + 1 < slots; k++)
        if (!is(k, 1, k + 2 == slots ? 1 : -(int)(k + 1))) return 0;
    return is(slots - 1, -(int)(slots - 1), 0);
}

/* SinglePos, PairPos of both formats, MarkBasePos, which is also read as MarkMarkPos, and MarkLigPos for glyph 1, each applied: the other calls. */
static const uint8_t single[] = {0, 1, 0, 8, 0, 4, 0, 9, 0, 1, 0, 1, 0, 1};
static const uint8_t pairs[] = {0, 1, 0, 12, 0, 4, 0, 4, 0, 1, 0, 18, 0, 1, 0, 1, 0, 1, 0, 1, 0, 1, 0, 9, 0, 9};
static const uint8_t classes[] = {0, 2, 0, 20, 0, 4, 0, 4, 0, 0, 0, 0, 0, 1, 0, 1, 0, 9, 0, 9, 0, 1, 0, 1, 0, 1};
static const uint8_t bases[] = {0, 1, 0, 12, 0, 12, 0, 1, 0, 18, 0, 30, 0, 1, 0, 1, 0, 1, 0, 1, 0, 0, 0, 6, 0, 1, 0, 1, 0, 1, 0, 1, 0, 4, 0, 1, 0, 9, 0, 9};
static const uint8_t ligatures[] = {0, 1, 0, 12, 0, 12, 0, 1, 0, 18, 0, 30, 0, 1, 0, 1, 0, 1, 0, 1, 0, 0, 0, 6, 0, 1, 0, 1, 0, 1, 0, 1, 0, 4, 0, 1, 0, 4, 0, 1, 0, 9, 0, 9};
static volatile uint32_t status;
static void starting(void) { gpos_start(line, size * slots, size); }
static void adjusting(void) { status = gpos_single(line, size * slots, size, single, sizeof single, 0, 1000, 1000, slots - 1).status; }
static void pairing(void) { status = gpos_pair(line, size * slots, size, pairs, sizeof pairs, 0, 1000, 1000, 0, 0, 1).status; }
static void classing(void) { status = gpos_pair(line, size * slots, size, classes, sizeof classes, 0, 1000, 1000, 0, 0, 1).status; }
static void on_base(void) { status = gpos_mark_base(line, size * slots, size, bases, sizeof bases, 0, 1000, 1000, slots - 1).status; }
static void on_ligature(void) { status = gpos_mark_ligature(line, size * slots, size, ligatures, sizeof ligatures, 0, 1000, 1000, slots - 1).status; }
static void on_mark(void) { status = gpos_mark_mark(line, size * slots, size, bases, sizeof bases, 0, 1000, 1000, slots - 1, 0, slots - 2).status; }

static void moving(void) {
    uint32_t refused = size == SHORT ? gpos_to_clusters(line, SHORT * slots, moved, LONG * slots) : gpos_from_clusters(line, LONG * slots, moved, SHORT * slots);
    status = refused == 0 ? GPOS_STATUS_APPLIED : GPOS_STATUS_REFUSED;
}

/* A run of a lookup of one subtable. */
static gpos_hazard list[2 * SLOTS];
static volatile uint32_t lookup_type;
static const uint8_t *volatile table;
static volatile size_t table_len;
static void running(void) {
    size_t len = table_len;
    gpos_run r = gpos_lookup(line, size * slots, size, lookup_type, 0, table, len, &len, 1, 0, 1000, 1000, list, 2 * SLOTS);
    status = r.refusal == GPOS_DONE ? GPOS_STATUS_APPLIED : GPOS_STATUS_REFUSED;
}

static size_t used(void (*call)(void)) {
    memset(room, PAINT, ROOM);
    __asm__ volatile("movq %%rsp, %%rbx\n\tmovq %0, %%rsp\n\tcall *%1\n\tmovq %%rbx, %%rsp"
                     :
                     : "r"(room + ROOM), "r"(call)
                     : "rbx", "rax", "rcx", "rdx", "rsi", "rdi", "r8", "r9", "r10", "r11", "memory", "cc");
    size_t k = 0;
    while (k < ROOM && room[k] == PAINT) k++;
    return ROOM - k;
}

/* The most that the calls take which don't call themselves; 0 if one isn't applied. */
static size_t others(void) {
    void (*calls[])(void) = {moving, adjusting, pairing, classing, on_base, on_ligature, on_mark};
    slots = SLOTS;
    chain_up();
    line[size * (SLOTS - 2) + 4] = 3; /* seen and a mark: what a mark goes to */
    line[size * (SLOTS - 2) + 7] = 0; /* and not attached */
    size_t most = 0;
    for (size_t k = 0; k < sizeof calls / sizeof *calls; k++) {
        size_t bytes = used(calls[k]);
        if (status != GPOS_STATUS_APPLIED) return 0;
        if (most < bytes) most = bytes;
    }
    size_t bytes = used(starting);
    return most < bytes ? bytes : most;
}

/* The most that a run takes but of cursive glyphs; 0 if one is refused. */
static size_t runs(void) {
    static const struct {
        uint32_t type;
        const uint8_t *bytes;
        size_t len;
    } lookups[] = {{1, single, sizeof single}, {2, pairs, sizeof pairs}, {2, classes, sizeof classes}, {4, bases, sizeof bases}, {5, ligatures, sizeof ligatures}, {6, bases, sizeof bases}};
    size_t most = 0;
    for (size_t k = 0; k < sizeof lookups / sizeof *lookups; k++) {
        slots = SLOTS;
        chain_up();
        for (size_t i = 0; i < SLOTS; i++) line[size * i + 4] = 3, line[size * i + 7] = 0; /* seen and a mark, and not attached */
        lookup_type = lookups[k].type, table = lookups[k].bytes, table_len = lookups[k].len;
        size_t bytes = used(running);
        if (status != GPOS_STATUS_APPLIED) return 0;
        if (most < bytes) most = bytes;
    }
    return most;
}

/* The same loop as of a single call, in a run: no slot between the first, which is seen, and the last is covered. */
static size_t run_reversing(size_t n) {
    slots = n;
    loop_down();
    for (size_t k = 1; k + 1 < n; k++) line[size * k + 1] = 0;
    line[4] = 1;
    lookup_type = 3, table = joins, table_len = sizeof joins;
    size_t bytes = used(running);
    return reversed() ? bytes : 0;
}

static size_t reversing(size_t n) {
    slots = n;
    loop_down();
    size_t bytes = used(reversal);
    return reversed() ? bytes : 0;
}

static size_t finishing_at(uint32_t most) {
    slots = SLOTS, limit = most;
    chain_up();
    return used(finishing);
}

/* The deepest calls, on the stack as it is. */
static int deepest(size_t bytes) {
    size = bytes, slots = SLOTS, limit = LIMIT;
    loop_down();
    reversal();
    int good = reversed();
    chain_up();
    finishing();
    return good;
}

static int report(size_t bytes) {
    size = bytes;
    size_t one = reversing(SLOTS), few = reversing(24), deep = finishing_at(LIMIT), flat = finishing_at(0), rest = others();
    size_t level = deep - finishing_at(LIMIT - 1);
    size_t run = run_reversing(SLOTS), short_run = run_reversing(24), others_run = runs();
    if (one == 0 || few == 0 || rest == 0 || run == 0 || short_run == 0 || others_run == 0) return 0;
    printf("slots of %zu bytes\n", bytes);
    printf("gpos_cursive: %zu bytes of stack to reverse a chain through 24 slots, %zu through 1,024: %zu a slot\n", few, one, (one - few) / (SLOTS - 24));
    printf("gpos_finish: %zu bytes with nesting limit 0, %zu with 64: %zu a level\n", flat, deep, level);
    printf("the other calls: at most %zu bytes\n", rest);
    printf("gpos_lookup: at most %zu bytes, but for cursive glyphs; to reverse a chain through 24 slots %zu, through 1,024 %zu\n", others_run, short_run, run);
    return 1;
}

int main(int words, char **word) {
    (void)word;
    if (words == 1) return !(report(SHORT) && report(LONG));
    int good = deepest(SHORT) && deepest(LONG);
    puts(good ? "both end" : "not reversed");
    return !good;
}
