#include "picture.h"

/* Where a glyph is drawn, and the box of its ink, in units of the label, y upward. */
typedef struct {
    double pen, x, y;
    double left, right, low, high;
} drawn;

static drawn at[GPOS_MOST_SLOTS], their[GPOS_MOST_SLOTS];

/* ---- Where everything is */

static drawn ink_of(const font *f, uint32_t glyph, const place *p, double pen, double scale) {
    hb_glyph_extents_t e = {0, 0, 0, 0};
    drawn d = {.pen = pen, .x = pen + p->x_offset, .y = p->y_offset};
    hb_font_get_glyph_extents(f->hb, glyph, &e);
    d.left = d.x + e.x_bearing * scale;
    d.right = d.left + e.width * scale;
    d.high = d.y + e.y_bearing * scale;
    d.low = d.high + e.height * scale;
    return d;
}

/* Returns where the pen ends. */
static double lay_out(const font *f, const glyphs *g, const places *p, double scale, drawn *to) {
    static int64_t pens[GPOS_MOST_SLOTS];
    int64_t end = pen_places(g, p, pens);
    for (size_t i = 0; i < p->count; i++)
        to[i] = ink_of(f, g->at[i].glyph, &p->at[i], (double)pens[i], scale);
    return (double)end;
}

static void widen(drawn *box, const drawn *by) {
    if (by->left < box->left) box->left = by->left;
    if (by->right > box->right) box->right = by->right;
    if (by->low < box->low) box->low = by->low;
    if (by->high > box->high) box->high = by->high;
}

static drawn box_of(size_t count, double pen, double em) {
    drawn box = {.left = 0, .right = pen, .low = -0.3 * em, .high = 0.8 * em};
    for (size_t i = 0; i < count; i++) {
        widen(&box, &at[i]);
        widen(&box, &their[i]);
    }
    return box;
}

/* ---- Outlines */

static void move_to(hb_draw_funcs_t *d, void *out, hb_draw_state_t *s, float x, float y, void *u) {
    (void)d, (void)s, (void)u;
    fprintf(out, "M%g,%g", (double)x, (double)y);
}

static void line_to(hb_draw_funcs_t *d, void *out, hb_draw_state_t *s, float x, float y, void *u) {
    (void)d, (void)s, (void)u;
    fprintf(out, "L%g,%g", (double)x, (double)y);
}

static void quadratic_to(hb_draw_funcs_t *d, void *out, hb_draw_state_t *s, float x1, float y1,
                         float x, float y, void *u) {
    (void)d, (void)s, (void)u;
    fprintf(out, "Q%g,%g %g,%g", (double)x1, (double)y1, (double)x, (double)y);
}

static void cubic_to(hb_draw_funcs_t *d, void *out, hb_draw_state_t *s, float x1, float y1,
                     float x2, float y2, float x, float y, void *u) {
    (void)d, (void)s, (void)u;
    fprintf(out, "C%g,%g %g,%g %g,%g", (double)x1, (double)y1, (double)x2, (double)y2, (double)x,
            (double)y);
}

static void close_path(hb_draw_funcs_t *d, void *out, hb_draw_state_t *s, void *u) {
    (void)d, (void)s, (void)u;
    fputs("Z", out);
}

static hb_draw_funcs_t *outline_writer(void) {
    hb_draw_funcs_t *d = hb_draw_funcs_create();
    hb_draw_funcs_set_move_to_func(d, move_to, NULL, NULL);
    hb_draw_funcs_set_line_to_func(d, line_to, NULL, NULL);
    hb_draw_funcs_set_quadratic_to_func(d, quadratic_to, NULL, NULL);
    hb_draw_funcs_set_cubic_to_func(d, cubic_to, NULL, NULL);
    hb_draw_funcs_set_close_path_func(d, close_path, NULL, NULL);
    return d;
}

static void draw_outline(FILE *out, const font *f, uint32_t glyph, hb_draw_funcs_t *writer,
                         const drawn *d, const char *class, double scale) {
    fprintf(out, "<path class=\"%s\" transform=\"translate(%g %g) scale(%g %g)\" d=\"", class, d->x,
            -d->y, scale, -scale);
#if HB_VERSION_ATLEAST(7, 0, 0)
    hb_font_draw_glyph(f->hb, glyph, writer, out);
#else
    hb_font_get_glyph_shape(f->hb, glyph, writer, out);
#endif
    fputs("\"/>\n", out);
}

static void draw_outlines(FILE *out, const font *f, const label *l, double scale) {
    hb_draw_funcs_t *writer = outline_writer();
    size_t count = l->glyphs->count;
    const glyph *g = l->glyphs->at;
    for (size_t i = 0; i < count; i++)
        if (!g[i].ignorable && (their[i].x != at[i].x || their[i].y != at[i].y))
            draw_outline(out, f, g[i].glyph, writer, &their[i], "theirs", scale);
    for (size_t i = 0; i < count; i++)
        if (!g[i].ignorable)
            draw_outline(out, f, g[i].glyph, writer, &at[i],
                         l->parent[i] == NO_PARENT ? "free" : "hung", scale);
    hb_draw_funcs_destroy(writer);
}

/* ---- Pen places, and what hangs on what */

/* Numbers of slots stand under their pens, in rows, so that none lies over another. */
static int row[GPOS_MOST_SLOTS];

static bool is_taken(size_t i, double em) {
    for (size_t j = 0; j < i; j++) {
        double by = at[j].pen - at[i].pen;
        if (row[j] == row[i] && by < 0.14 * em && -by < 0.14 * em) return true;
    }
    return false;
}

/* Returns how many rows there are. */
static int choose_rows(size_t count, double em) {
    int rows = 0;
    for (size_t i = 0; i < count; i++) {
        for (row[i] = 0; is_taken(i, em);) row[i]++;
        if (row[i] >= rows) rows = row[i] + 1;
    }
    return rows;
}

/* A tick below the baseline where the pen is, and under it the slot's number. */
static void draw_pens(FILE *out, size_t count, double em) {
    for (size_t i = 0; i < count; i++) {
        fprintf(out, "<path class=\"pen\" d=\"M%g,0v%g\"/>\n", at[i].pen, 0.34 * em);
        fprintf(out, "<text x=\"%g\" y=\"%g\">%zu</text>\n", at[i].pen, (0.44 + 0.11 * row[i]) * em,
                i);
    }
}

/* From the middle of the glyph to the middle of what it hangs on, with a dot at the glyph. */
static void draw_attachments(FILE *out, const label *l, size_t count, double em) {
    for (size_t i = 0; i < count; i++) {
        if (l->parent[i] == NO_PARENT) continue;
        drawn *to = &at[l->parent[i]];
        double x = (at[i].left + at[i].right) / 2, y = (at[i].low + at[i].high) / 2;
        fprintf(out, "<path class=\"hangs\" d=\"M%g,%gL%g,%g\"/>\n", x, -y,
                (to->left + to->right) / 2, -(to->low + to->high) / 2);
        fprintf(out, "<circle cx=\"%g\" cy=\"%g\" r=\"%g\"/>\n", x, -y, 0.022 * em);
    }
}

/* ---- The page */

static void write_text(FILE *out, const char *utf8) {
    for (; *utf8; utf8++) {
        if (*utf8 == '<')
            fputs("&lt;", out);
        else if (*utf8 == '>')
            fputs("&gt;", out);
        else if (*utf8 == '&')
            fputs("&amp;", out);
        else
            fputc(*utf8, out);
    }
}

static void begin_page(FILE *out, const text *t, drawn box, int rows, double em) {
    double margin = 0.12 * em, width = box.right - box.left + 2 * margin;
    double below = -box.low > (0.4 + 0.11 * rows) * em ? -box.low : (0.4 + 0.11 * rows) * em;
    double height = box.high + below + 2 * margin;
    fprintf(out,
            "<svg xmlns=\"http://www.w3.org/2000/svg\" width=\"%.0f\" height=\"%.0f\" "
            "viewBox=\"%g %g %g %g\">\n<title>",
            160 * width / em, 160 * height / em, box.left - margin, -box.high - margin, width,
            height);
    write_text(out, t->utf8);
    fprintf(out,
            "</title>\n<style>.theirs{fill:#ddd}.free{fill:#222}.hung{fill:#a33}"
            ".pen,.base,.hangs{fill:none;stroke-width:%g}"
            ".base,.pen{stroke:#999}.hangs{stroke:#06c}circle{fill:#06c}"
            "text{fill:#777;font:%gpx sans-serif;text-anchor:middle}</style>\n",
            0.012 * em, 0.1 * em);
    fprintf(out, "<rect x=\"%g\" y=\"%g\" width=\"%g\" height=\"%g\" fill=\"#fff\"/>\n",
            box.left - margin, -box.high - margin, width, height);
}

bool draw_picture(FILE *out, const font *f, const text *t, const label *l, const places *ours,
                  const places *theirs) {
    double em = l->em_size, scale = em / l->units_per_em;
    size_t count = ours->count;
    hb_font_set_scale(f->hb, (int)f->units_per_em, (int)f->units_per_em);
    double pen = lay_out(f, l->glyphs, ours, scale, at);
    lay_out(f, l->glyphs, theirs, scale, their);
    begin_page(out, t, box_of(count, pen, em), choose_rows(count, em), em);
    fprintf(out, "<path class=\"base\" d=\"M0,0H%g\"/>\n", pen);
    draw_pens(out, count, em);
    draw_outlines(out, f, l, scale);
    draw_attachments(out, l, count, em);
    fputs("</svg>\n", out);
    return !ferror(out);
}
