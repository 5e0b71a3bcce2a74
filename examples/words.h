/* What the examples share: big-endian words and parts of subtables, and answers in words. */
#ifndef WORDS_H
#define WORDS_H

#include "gpos.h"

#include <stdio.h>
#include <stdlib.h>

/* A number of two bytes, signed or not. */
#define U16(n) (uint8_t)((unsigned)(n) >> 8 & 255), (uint8_t)((unsigned)(n) & 255)

/* Coverage, format 1, of one glyph (6 bytes) or of two (8), in ascending order. */
#define COVERAGE(glyph) U16(1), U16(1), U16(glyph)
#define COVERAGE_2(glyph, other) U16(1), U16(2), U16(glyph), U16(other)

/* An anchor of format 1 (6 bytes). */
#define ANCHOR(x, y) U16(1), U16(x), U16(y)

/* A refusal in words. */
static inline void say_refused(FILE *out, const char *call, uint32_t refusal) {
    fprintf(out, "%s: refused with %u: %s\n", call, (unsigned)refusal, gpos_refusal_text(refusal));
}

/* Stops the program where a call was refused that must not be. */
static inline void must(const char *call, uint32_t refusal) {
    if (refusal == GPOS_DONE) return;
    say_refused(stderr, call, refusal);
    exit(1);
}

static inline void say_done(const char *call, uint32_t refusal) {
    if (refusal == GPOS_DONE)
        printf("%s: done\n", call);
    else
        say_refused(stdout, call, refusal);
}

static inline void say(const char *call, gpos_answer a) {
    if (a.status == GPOS_STATUS_REFUSED) {
        say_refused(stdout, call, a.refusal);
        return;
    }
    printf("%s: ", call);
    if (a.status == GPOS_STATUS_APPLIED)
        printf("applied, next %zu%s", a.next, a.attached ? ", attached" : "");
    else
        printf("declined");
    for (uint32_t k = 0; k < a.hazard_count; k++)
        printf(", %s [%zu, %zu)", a.hazard[k].kind == GPOS_UNSAFE_TO_BREAK ? "break" : "concat",
               a.hazard[k].start, a.hazard[k].end);
    puts("");
}

#endif
