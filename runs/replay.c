/* Makes recorded runs of lookups again, by gpos_lookup, and compares what they answer and leave
   with what was recorded: what the Rust's single calls gave, made one after another
   (oracle/record). Reads the file `recorded` on standard input, and stops at the first difference.

   The file: how many runs, then they. A number is in groups of seven bits, the highest first, and
   every byte but its last has the high bit. A run has these numbers:

       lookup type, lookup flag, direction, em size, units per em, slot size;
       number of subtables, and the length of each as the call is told it;
       length of the subtables' buffer, length of the line, places of the list;
       refusal, attached, index, number of hazards; of each hazard kind, start and end

   and then these bytes: the line; the subtables; 1 if the run changes the line, else 0; the line
   afterwards, if it is changed. */
#include "../include/gpos.h"

#include <stdio.h>
#include <stdlib.h>
#include <string.h>

typedef struct {
    uint32_t type, flag, direction, em_size, units_per_em;
    size_t slot_size, subtable_count, subtables_len, line_len, places;
    size_t *subtable_lens;
    uint8_t *line, *subtables, *line_after;
    gpos_run answer;
    gpos_hazard *hazards;
} recorded;

/* ---- Reading */

static void fail(const char *what) {
    printf("runs/replay: %s\n", what);
    exit(2);
}

static void read_bytes(uint8_t *to, size_t len) {
    if (len > 0 && fread(to, 1, len, stdin) != len) fail("the file ends too early");
}

static uint64_t read_number(void) {
    uint64_t n = 0;
    uint8_t group;
    do {
        read_bytes(&group, 1);
        n = n << 7 | (group & 127);
    } while (group > 127);
    return n;
}

static uint32_t read_32(void) { return (uint32_t)read_number(); }

/* Exactly so many bytes, so that a tool that watches memory sees each that is touched beside them.
   NULL where there are none, as a caller may pass it. */
static void *room(size_t len) {
    if (len == 0) return NULL;
    void *at = malloc(len);
    if (at == NULL) fail("no memory");
    return at;
}

static uint8_t *read_part(size_t len) {
    uint8_t *at = room(len);
    read_bytes(at, len);
    return at;
}

static void read_arguments(recorded *r) {
    r->type = read_32();
    r->flag = read_32();
    r->direction = read_32();
    r->em_size = read_32();
    r->units_per_em = read_32();
    r->slot_size = read_number();
    r->subtable_count = read_number();
    r->subtable_lens = room(r->subtable_count * sizeof(size_t));
    for (size_t k = 0; k < r->subtable_count; k++) r->subtable_lens[k] = read_number();
    r->subtables_len = read_number();
    r->line_len = read_number();
    r->places = read_number();
}

static void read_answer(recorded *r) {
    r->answer.refusal = read_32();
    r->answer.attached = read_32();
    r->answer.index = read_number();
    r->answer.count = read_number();
    r->hazards = room(r->answer.count * sizeof(gpos_hazard));
    for (size_t k = 0; k < r->answer.count; k++) {
        r->hazards[k].kind = read_32();
        r->hazards[k].start = read_number();
        r->hazards[k].end = read_number();
    }
}

static recorded read_recorded(void) {
    recorded r;
    read_arguments(&r);
    read_answer(&r);
    r.line = read_part(r.line_len);
    r.subtables = read_part(r.subtables_len);
    r.line_after = room(r.line_len);
    if (read_number() == 1)
        read_bytes(r.line_after, r.line_len);
    else if (r.line_len > 0)
        memcpy(r.line_after, r.line, r.line_len);
    return r;
}

static void forget(recorded *r) {
    free(r->subtable_lens);
    free(r->hazards);
    free(r->line);
    free(r->subtables);
    free(r->line_after);
}

/* ---- Comparing */

/* A list that holds something everywhere, so that a place that is written shows. */
static gpos_hazard *lent_list(size_t places) {
    size_t len = places * sizeof(gpos_hazard);
    uint8_t *at = room(len);
    for (size_t k = 0; k < len; k++) at[k] = (uint8_t)(145 + 37 * k);
    return (gpos_hazard *)(void *)at;
}

static int same_answer(gpos_run a, gpos_run b) {
    return a.refusal == b.refusal && a.attached == b.attached && a.index == b.index &&
           a.count == b.count;
}

/* Not by memcmp: between kind and start there is padding. */
static int same_hazard(const gpos_hazard *a, const gpos_hazard *b) {
    return a->kind == b->kind && a->start == b->start && a->end == b->end;
}

static int same_bytes(const void *a, const void *b, size_t len) {
    return len == 0 || memcmp(a, b, len) == 0;
}

/* The hazards that were recorded, and behind them what was lent. */
static int same_list(const recorded *r, const gpos_hazard *list, const gpos_hazard *lent) {
    size_t count = r->answer.count;
    for (size_t k = 0; k < count; k++)
        if (!same_hazard(&list[k], &r->hazards[k])) return 0;
    size_t behind = r->places - count;
    return behind == 0 || same_bytes(list + count, lent + count, behind * sizeof(gpos_hazard));
}

/* What differs first, or NULL. */
static const char *difference(recorded *r, gpos_hazard *list, const gpos_hazard *lent) {
    gpos_run answer = gpos_lookup(r->line, r->line_len, r->slot_size, r->type, r->flag,
                                  r->subtables, r->subtables_len, r->subtable_lens,
                                  r->subtable_count, r->direction, r->em_size, r->units_per_em,
                                  list, r->places);
    if (!same_answer(answer, r->answer)) return "answer";
    if (!same_bytes(r->line, r->line_after, r->line_len)) return "line";
    return same_list(r, list, lent) ? NULL : "list";
}

static const char *replay(recorded *r) {
    if (r->answer.count > r->places) fail("a run has more hazards than places");
    gpos_hazard *list = lent_list(r->places), *lent = lent_list(r->places);
    const char *what = difference(r, list, lent);
    free(list);
    free(lent);
    return what;
}

int main(void) {
    size_t count = read_number();
    for (size_t k = 0; k < count; k++) {
        recorded r = read_recorded();
        const char *what = replay(&r);
        if (what != NULL) {
            printf("runs/replay: run %zu of %zu, type %u, leaves another %s\n", k + 1, count,
                   (unsigned)r.type, what);
            return 1;
        }
        forget(&r);
    }
    uint8_t more;
    if (fread(&more, 1, 1, stdin) != 0) fail("the file goes on behind its last run");
    printf("%zu runs replayed, all alike\n", count);
    return 0;
}
