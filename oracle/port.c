/* Answers frames on standard input, as README.md has them, by calling the library: the port's side of the comparison. A
   call joins by a function and a row. */
#include "gpos.h"

#include <stdio.h>
#include <stdlib.h>
#include <string.h>

typedef struct {
    uint32_t direction, s, u, limit, attachments, missing, lookup_flag;
    size_t size, index, neighbour, line_len, subtable_len;
    uint8_t *line, *subtable; /* a move's target is in the subtable's place */
} call;

/* status, refusal, attached, hazard count, next, two hazards of kind, start and end, harm */
typedef struct {
    uint64_t number[12];
} said;

enum { DONE = 0, REFUSED = 3 };

static said done(uint32_t number) {
    said a = {{number == 0 ? DONE : REFUSED, number}};
    return a;
}

static said applying(gpos_answer g) {
    said a = {{g.status, g.refusal, g.attached, g.hazard_count, g.next,
               g.hazard[0].kind, g.hazard[0].start, g.hazard[0].end, g.hazard[1].kind, g.hazard[1].start, g.hazard[1].end}};
    return a;
}

static said start(const call *c) { return done(gpos_start(c->line, c->line_len, c->size)); }

static said finish(const call *c) { return done(gpos_finish(c->line, c->line_len, c->size, c->direction, c->limit, c->attachments)); }

#define APPLYING c->line, c->line_len, c->size, c->subtable, c->subtable_len, c->direction, c->s, c->u, c->index
static said single(const call *c) { return applying(gpos_single(APPLYING)); }
static said pair(const call *c) { return applying(gpos_pair(APPLYING, c->missing, c->neighbour)); }
static said cursive(const call *c) { return applying(gpos_cursive(APPLYING, c->missing, c->neighbour, c->lookup_flag)); }
static said mark_base(const call *c) { return applying(gpos_mark_base(APPLYING)); }
static said mark_ligature(const call *c) { return applying(gpos_mark_ligature(APPLYING)); }
static said mark_mark(const call *c) { return applying(gpos_mark_mark(APPLYING, c->missing, c->neighbour)); }

#define MOVING c->line, c->line_len, c->subtable, c->subtable_len
static said to_clusters(const call *c) { return done(gpos_to_clusters(MOVING)); }
static said from_clusters(const call *c) { return done(gpos_from_clusters(MOVING)); }

enum { MOVES = 8, ROWS = 10, KINDS = 255, HEADER = 64, GUARD = 64 };

/* By kind; a call that the library doesn't have yet is left out. From MOVES on they write to the target and not to the line. */
static said (*const rows[ROWS])(const call *) = {
    [0] = start,
    [1] = finish,
    [2] = single,
    [3] = pair,
    [4] = cursive,
    [5] = mark_base,
    [6] = mark_ligature,
    [7] = mark_mark,
    [8] = to_clusters,
    [9] = from_clusters,
};

/* Memory between two guards. */
typedef struct {
    uint8_t *all;
    size_t room, len;
} lent;

/* Room for so many bytes, aligned for any type. */
static uint8_t *room_for(lent *m, size_t len) {
    if (m->room < len + 2 * GUARD) {
        m->room = 2 * len + 2 * GUARD;
        m->all = realloc(m->all, m->room);
    }
    m->len = len;
    memset(m->all, 0xA5, GUARD);
    memset(m->all + GUARD + len, 0x5A, GUARD);
    return m->all + GUARD;
}

static uint8_t *lend(lent *m, const uint8_t *from, size_t len) {
    uint8_t *at = room_for(m, len);
    memcpy(at, from, len);
    return len == 0 ? NULL : at;
}

/* Was a guard changed? */
static int harmed(const lent *m) {
    for (size_t k = 0; k < GUARD; k++)
        if (m->all[k] != 0xA5 || m->all[GUARD + m->len + k] != 0x5A) return 1;
    return 0;
}

static int changed(const lent *m, const uint8_t *from) { return memcmp(m->all + GUARD, from, m->len) != 0; }

static uint64_t get(const uint8_t *at, int bytes) {
    uint64_t n = 0;
    for (int k = 0; k < bytes; k++) n = n << 8 | at[k];
    return n;
}

static void put(uint64_t n, int bytes) {
    uint8_t b[8];
    for (int k = bytes; k > 0; n >>= 8) b[--k] = (uint8_t)n;
    fwrite(b, 1, (size_t)bytes, stdout);
}

static said serve(const uint8_t *q, lent *line, lent *subtable) {
    call c;
    c.direction = (uint32_t)get(q + 4, 4);
    c.s = (uint32_t)get(q + 8, 4);
    c.u = (uint32_t)get(q + 12, 4);
    c.limit = (uint32_t)get(q + 16, 4);
    c.attachments = (uint32_t)get(q + 20, 4);
    c.missing = (uint32_t)get(q + 24, 4);
    c.lookup_flag = (uint32_t)get(q + 28, 4);
    c.size = get(q + 32, 8);
    c.index = get(q + 40, 8);
    c.neighbour = get(q + 48, 8);
    c.line_len = get(q + 56, 4);
    c.subtable_len = get(q + 60, 4);
    const uint8_t *first = q + HEADER, *second = first + c.line_len;
    c.line = lend(line, first, c.line_len);
    c.subtable = lend(subtable, second, c.subtable_len);
    said a = rows[q[0]](&c);
    int written = q[0] >= MOVES ? changed(line, first) : changed(subtable, second); /* what is only to be read */
    a.number[11] = harmed(line) || harmed(subtable) || written;
    return a;
}

/* ---- Runs of a lookup */

enum { RUN = 10, RUN_HEADER = 56 };

/* What is lent for a run. */
typedef struct {
    lent line, subtables, lens, list;
} lent_run;

/* The lengths, as an array of the library's numbers. */
static size_t *lend_lens(lent *m, const uint8_t *from, size_t count) {
    size_t *at = (size_t *)(void *)room_for(m, count * sizeof(size_t));
    for (size_t k = 0; k < count; k++) at[k] = get(from + 8 * k, 8);
    return count == 0 ? NULL : at;
}

static int lens_changed(const lent *m, const uint8_t *from) {
    const size_t *at = (const size_t *)(const void *)(m->all + GUARD);
    for (size_t k = 0; k < m->len / sizeof(size_t); k++)
        if (at[k] != get(from + 8 * k, 8)) return 1;
    return 0;
}

/* A list that holds something everywhere, so that a place that is written shows. */
static gpos_hazard *lend_list(lent *m, size_t places) {
    uint8_t *at = room_for(m, places * sizeof(gpos_hazard));
    for (size_t k = 0; k < m->len; k++) at[k] = (uint8_t)(145 + 37 * k);
    return places == 0 ? NULL : (gpos_hazard *)(void *)at;
}

static void put_lent(const lent *m) { fwrite(m->all + GUARD, 1, m->len, stdout); }

static void answer_run(const gpos_run *g, int harm, const lent_run *m) {
    put(5 * 8 + m->line.len + m->list.len, 4);
    put(g->refusal, 8);
    put(g->attached, 8);
    put(g->index, 8);
    put(g->count, 8);
    put((uint64_t)harm, 8);
    put_lent(&m->line);
    put_lent(&m->list);
}

static void serve_run(const uint8_t *q, lent_run *m) {
    size_t line_len = get(q + 24, 4), subtables_len = get(q + 28, 4);
    size_t count = get(q + 40, 8), places = get(q + 48, 8);
    const uint8_t *lens_at = q + RUN_HEADER, *line_at = lens_at + 8 * count;
    const uint8_t *subtables_at = line_at + line_len;
    uint8_t *line = lend(&m->line, line_at, line_len);
    const uint8_t *subtables = lend(&m->subtables, subtables_at, subtables_len);
    const size_t *lens = lend_lens(&m->lens, lens_at, count);
    gpos_hazard *list = lend_list(&m->list, places);
    uint32_t direction = (uint32_t)get(q + 4, 4), s = (uint32_t)get(q + 8, 4);
    uint32_t u = (uint32_t)get(q + 12, 4), type = (uint32_t)get(q + 16, 4);
    uint32_t flag = (uint32_t)get(q + 20, 4);
    gpos_run g = gpos_lookup(line, line_len, get(q + 32, 8), type, flag, subtables, subtables_len,
                             lens, count, direction, s, u, list, places);
    int harm = harmed(&m->line) || harmed(&m->subtables) || harmed(&m->lens) || harmed(&m->list);
    int written = changed(&m->subtables, subtables_at) || lens_changed(&m->lens, lens_at);
    answer_run(&g, harm || written, m);
}

int main(void) {
    lent line = {0}, subtable = {0};
    lent_run run = {0};
    uint8_t *request = NULL, size[4];
    size_t room = 0;
    while (fread(size, 1, 4, stdin) == 4) {
        size_t n = get(size, 4);
        if (n == 0) {
            fflush(stdout);
            continue;
        }
        if (room < n) request = realloc(request, room = 2 * n);
        if (fread(request, 1, n, stdin) != n) return 1;
        if (request[0] == KINDS) { /* which calls are there? */
            put(ROWS, 4);
            for (int k = 0; k < ROWS; k++) put(rows[k] != NULL, 1);
            continue;
        }
        if (request[0] == RUN) {
            serve_run(request, &run);
            continue;
        }
        said a = serve(request, &line, &subtable);
        const lent *after = request[0] >= MOVES ? &subtable : &line;
        put(12 * 8 + after->len, 4);
        for (int k = 0; k < 12; k++) put(a.number[k], 8);
        fwrite(after->all + GUARD, 1, after->len, stdout);
    }
    return 0;
}
