/* A label positioned by the library, as docs/GUIDE.md says, in slots with a cluster. */
#ifndef LABEL_H
#define LABEL_H

#include "lookups.h"

enum { SIZE = GPOS_CLUSTERED_SIZE, NO_PARENT = -1 };

typedef struct {
    const glyphs *glyphs;
    const lookups *lookups;
    const gdef *gdef;
    uint32_t units_per_em, em_size;
    bool keeps_old; /* the line isn't started: what its memory hangs on others stays so */

    /* Older rules, of HarfBuzz 6, which harfrust and so this library has otherwise; a label can be
       positioned by them to see what they change. A hidden glyph, a CGJ mostly, is seen where a
       glyph looks for another. A mark goes up and down with what it hangs on, wherever that is in
       the end; now it goes by where that was when the mark was attached. */
    bool sees_hidden, moves_after;

    bool attached, endless; /* some call attached; some run was stopped, with refusal 7 */
    uint8_t line[GPOS_MOST_SLOTS * SIZE];
    int32_t taken[GPOS_MOST_SLOTS]; /* the cross offset that a mark took from what it hangs on */
    int parent[GPOS_MOST_SLOTS];    /* what a glyph hangs on, or NO_PARENT */
    bool is_mark[GPOS_MOST_SLOTS];  /* it hangs on that as a mark */
} label;

/* A label of these glyphs, in units of the font, by today's rules. */
void prepare_label(label *l, const font *f, const glyphs *g, const lookups *chosen);

/* Fills the slots, starts the line, runs the lookups, sets advances to 0; then finishes it. */
void attach(label *l);
void finish(label *l, places *out);

/* Where the pen is at each glyph, from the left; returns where it ends. */
int64_t pen_places(const glyphs *g, const places *p, int64_t *pens);

#endif
