/* Whether the library puts a label's glyphs where HarfBuzz puts them; and if not, why. */
#ifndef VERDICT_H
#define VERDICT_H

#include "label.h"

#include <stdio.h>

/* The reasons that are known, a bit each: what the library hasn't, the older rules of HarfBuzz 6
   (label.h: sees_hidden, moves_after), what the library refuses. UNEXPLAINED is none of these. */
enum { CONTEXTUAL = 1, KERN_TABLE = 2, HIDDEN = 4, MOVED_AFTER = 8, REFUSED = 16 };
enum { REASONS = 5, UNEXPLAINED = 1 << REASONS };

/* "different", and why. */
void print_reasons(FILE *out, unsigned reasons);

/* Whether a glyph, or all of a label, is drawn alike by both: its advances and, if it is shown,
   its offsets. */
bool same_place(const glyph *g, const place *a, const place *b);
bool alike(const glyphs *g, const places *ours, const places *theirs);

/* The reasons are the fewest, 0 for the same, with which the two are alike: HarfBuzz leaves out
   what the library hasn't and what it refuses, and the label is positioned by the older rules that
   are among them. Two units make one of the font: so it is scaled, and nothing is rounded. */
typedef struct {
    unsigned reasons;
    bool marks_elsewhere; /* some mark is elsewhere on the last glyph before it that is no mark */
} verdict;

/* Adds to `moved` the numbers of what moves a glyph of HarfBuzz's own label. */
verdict judge(const label *l, const font *f, const text *t, hb_set_t *moved);

#endif
