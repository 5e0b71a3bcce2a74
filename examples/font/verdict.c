#include "verdict.h"

#include <string.h>

static const char *const reason_words[REASONS] = {
    "contextual lookups (types 7 and 8) are not in the library",
    "the kern table is not read by the library",
    "HarfBuzz 6 doesn't pass over a hidden character (CGJ)",
    "HarfBuzz 6 moves a mark with what it hangs on, across the line, also after it was attached",
    "a subtable is refused by the library",
};

void print_reasons(FILE *out, unsigned reasons) {
    const char *before = "different: ";
    for (int k = 0; k < REASONS; k++) {
        if (!(reasons >> k & 1)) continue;
        fprintf(out, "%s%s", before, reason_words[k]);
        before = "; ";
    }
    if (reasons == UNEXPLAINED) fputs("different: for no reason that is known", out);
    fputs("\n", out);
}

bool same_place(const glyph *g, const place *a, const place *b) {
    if (a->x_advance != b->x_advance || a->y_advance != b->y_advance) return false;
    if (g->ignorable) return true; /* not shown */
    return a->glyph == b->glyph && a->x_offset == b->x_offset && a->y_offset == b->y_offset;
}

bool alike(const glyphs *g, const places *ours, const places *theirs) {
    if (ours->count != theirs->count) return false;
    for (size_t i = 0; i < ours->count; i++)
        if (!same_place(&g->at[i], &ours->at[i], &theirs->at[i])) return false;
    return true;
}

static bool marks_alike(const glyphs *g, const places *ours, const places *theirs) {
    static int64_t pens[GPOS_MOST_SLOTS], their_pens[GPOS_MOST_SLOTS];
    size_t letter = 0;
    if (ours->count != theirs->count) return false;
    pen_places(g, ours, pens);
    pen_places(g, theirs, their_pens);
    for (size_t i = 0; i < ours->count; i++) {
        const place *a = &ours->at[i], *b = &theirs->at[i];
        const place *on = &ours->at[letter], *their = &theirs->at[letter];
        int64_t x = pens[i] + a->x_offset - pens[letter] - on->x_offset;
        int64_t their_x = their_pens[i] + b->x_offset - their_pens[letter] - their->x_offset;
        if (g->at[i].gdef_class != MARK)
            letter = i;
        else if (x != their_x || a->y_offset - on->y_offset != b->y_offset - their->y_offset)
            return false;
    }
    return true;
}

/* HarfBuzz's own label, without what gives these reasons. */
static void theirs_but_for(unsigned reasons, const label *l, const font *f, const text *t,
                           int scale, places *theirs, hb_set_t *moved) {
    hb_set_t *contextual = hb_set_create();
    left_out without = {contextual, reasons & KERN_TABLE};
    for (size_t k = 0; (reasons & CONTEXTUAL) && k < l->lookups->count; k++)
        if (is_contextual(&l->lookups->at[k])) hb_set_add(contextual, l->lookups->at[k].index);
    if (reasons & REFUSED) {
        font changed = font_without(f, l->lookups->refused);
        position_by_harfbuzz(&changed, t, scale, without, theirs, moved);
        close_font(&changed);
    } else
        position_by_harfbuzz(f, t, scale, without, theirs, moved);
    hb_set_destroy(contextual);
}

/* The library's, by the older rules among them. */
static void ours_but_for(unsigned reasons, const label *l, int scale, places *ours) {
    static label again;
    again = *l;
    memset(again.line, 0xFF, sizeof again.line); /* old attachments, which starting forgets */
    again.keeps_old = false;
    again.sees_hidden = reasons & HIDDEN;
    again.moves_after = reasons & MOVED_AFTER;
    again.em_size = (uint32_t)scale;
    attach(&again);
    finish(&again, ours);
}

static int bits(unsigned n) { return n ? (int)(n & 1) + bits(n >> 1) : 0; }

verdict judge(const label *l, const font *f, const text *t, hb_set_t *moved) {
    static places ours, theirs;
    int scale = 2 * (int)f->units_per_em;
    unsigned known = hb_set_is_empty(l->lookups->refused) ? REFUSED : UNEXPLAINED;
    verdict v = {UNEXPLAINED, false};
    for (int count = 0; count <= REASONS; count++)
        for (unsigned reasons = 0; reasons < known; reasons++) {
            if (bits(reasons) != count) continue;
            ours_but_for(reasons, l, scale, &ours);
            theirs_but_for(reasons, l, f, t, scale, &theirs, reasons ? NULL : moved);
            if (!reasons) v.marks_elsewhere = !marks_alike(l->glyphs, &ours, &theirs);
            if (l->lookups->as_harfbuzz && alike(l->glyphs, &ours, &theirs)) {
                v.reasons = reasons;
                return v;
            }
        }
    return v;
}
