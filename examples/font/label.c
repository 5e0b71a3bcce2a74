#include "label.h"
#include "../words.h"

#include <string.h>

static uint8_t *slot(label *l, size_t i) { return gpos_slot_at(l->line, SIZE, i); }
static size_t line_len(const label *l) { return l->glyphs->count * SIZE; }
static uint32_t direction(const label *l) {
    return l->glyphs->right_to_left ? GPOS_DIRECTION_RIGHT_TO_LEFT : GPOS_DIRECTION_LEFT_TO_RIGHT;
}

/* ---- Filling the slots */

/* To the nearest whole number, a tie away from zero, as the library rounds. */
static int32_t scaled(const label *l, int64_t v) {
    int64_t em = l->units_per_em, half = v < 0 ? -em : em;
    return (int32_t)((2 * v * l->em_size + half) / (2 * em));
}

static void fill(label *l) {
    for (size_t i = 0; i < l->glyphs->count; i++) {
        const glyph *g = &l->glyphs->at[i];
        gpos_slot old = gpos_get_slot(slot(l, i)), s = {0};
        s.glyph = (uint16_t)g->glyph;
        s.ligature_id = g->ligature_id;
        s.component = g->component;
        s.flags = (uint8_t)((g->gdef_class == MARK ? GPOS_SLOT_MARK : 0) |
                            (g->multiplied ? GPOS_SLOT_MULTIPLIED : 0));
        s.x_advance = scaled(l, g->advance);
        s.attach_type = old.attach_type; /* whatever the memory holds: starting forgets it */
        s.chain = old.chain;
        gpos_put_slot(slot(l, i), s);
        gpos_put_cluster(slot(l, i), g->cluster);
    }
}

/* ---- What a lookup sees, and what it is for */

/* Whether the lookup's flag chooses marks, by set or else by class, and this is another mark. */
static bool leaves_out(const label *l, const lookup *k, const glyph *g) {
    uint32_t class = (k->flag & GPOS_LOOKUP_MARK_ATTACHMENT_CLASS) >> 8;
    if (g->gdef_class != MARK) return false;
    if (k->flag & GPOS_LOOKUP_USE_MARK_FILTERING_SET)
        return !in_mark_set(l->gdef, k->mark_set, g->glyph);
    return class != 0 && class != g->mark_class;
}

/* Whether the lookup's flag skips the glyph. */
static bool skips(const label *l, const lookup *k, const glyph *g) {
    switch (g->gdef_class) {
    case BASE: return k->flag & GPOS_LOOKUP_IGNORE_BASES;
    case LIGATURE: return k->flag & GPOS_LOOKUP_IGNORE_LIGATURES;
    case MARK: return (k->flag & GPOS_LOOKUP_IGNORE_MARKS) || leaves_out(l, k, g);
    default: return false;
    }
}

static bool passes_over(const label *l, const lookup *k, const glyph *g) {
    if (g->zwj) return !k->sees_zwj;
    if (g->hidden && l->sees_hidden) return false;
    return g->ignorable;
}

/* Whether the lookup, where it looks for a glyph beside the one at hand, sees this one. All
   features that are chosen are on at every glyph. */
static bool sees(const label *l, const lookup *k, const glyph *g) {
    if (passes_over(l, k, g)) return false;
    switch (k->type) {
    case 4:
    case 5: return g->gdef_class != MARK;
    case 6: return !leaves_out(l, k, g);
    default: return !skips(l, k, g);
    }
}

enum { NO_GLYPH = 0xFFFF };

static bool is_for(const label *l, const lookup *k, const glyph *g) {
    if ((k->type == 4 || k->type == 5) && sees(l, k, g)) return true;
    return !skips(l, k, g);
}

static void prepare(label *l, const lookup *k) {
    for (size_t i = 0; i < l->glyphs->count; i++) {
        const glyph *g = &l->glyphs->at[i];
        gpos_slot s = gpos_get_slot(slot(l, i));
        s.flags = (uint8_t)((s.flags & ~GPOS_SLOT_SEEN) | (sees(l, k, g) ? GPOS_SLOT_SEEN : 0));
        s.glyph = is_for(l, k, g) ? (uint16_t)g->glyph : NO_GLYPH;
        gpos_put_slot(slot(l, i), s);
    }
}

/* ---- One lookup */

static int parent_of(label *l, size_t i) {
    gpos_slot s = gpos_get_slot(slot(l, i));
    int64_t parent = (int64_t)i + s.chain;
    if (!s.chain || parent < 0 || parent >= (int64_t)l->glyphs->count) return NO_PARENT;
    return (int)parent;
}

/* How far up glyph i is: its own y offset and those of the glyphs that it joins, one after another,
   as far as they are known now. */
static int32_t height(label *l, size_t i) {
    int32_t y = gpos_get_slot(slot(l, i)).y_offset;
    for (size_t n = 0; n < l->glyphs->count; n++) {
        int parent = parent_of(l, i);
        if (parent < 0 || !(gpos_get_slot(slot(l, i)).attach_type & GPOS_ATTACH_CURSIVE)) break;
        i = (size_t)parent;
        y += gpos_get_slot(slot(l, i)).y_offset;
    }
    return y;
}

/* What a mark took of its parent's height. In a lookup of marks a break is an attachment: of the
   last slot of its range. */
static void note_taken(label *l, const lookup *k, const gpos_hazard *list, size_t count) {
    if (k->type < 4) return;
    for (size_t n = 0; n < count; n++) {
        size_t i = list[n].end - 1;
        if (list[n].kind != GPOS_UNSAFE_TO_BREAK) continue;
        int parent = parent_of(l, i);
        l->taken[i] = parent == NO_PARENT ? 0 : height(l, (size_t)parent);
    }
}

static gpos_hazard hazards[GPOS_PLACES(GPOS_MOST_SLOTS, GPOS_MOST_SUBTABLES)];
enum { PLACES = sizeof hazards / sizeof *hazards };

static void run(label *l, const lookup *k) {
    gpos_run r = gpos_lookup(l->line, line_len(l), SIZE, k->type, k->flag, k->end_to_end,
                             k->end_to_end_len, k->lens, k->subtable_count, direction(l),
                             l->em_size, l->units_per_em, hazards, PLACES);
    l->attached |= r.attached;
    if (r.refusal == GPOS_REFUSED_ENDLESS)
        l->endless = l->attached = true;
    else
        must("gpos_lookup", r.refusal);
    note_taken(l, k, hazards, r.count);
}

/* The nearest seen slot from i on, upward or downward, or none: the slot count, or 0. */
typedef struct {
    uint32_t missing;
    size_t at;
} neighbour;

static neighbour after(label *l, size_t i) {
    for (size_t j = i + 1; j < l->glyphs->count; j++)
        if (gpos_get_slot(slot(l, j)).flags & GPOS_SLOT_SEEN)
            return (neighbour){GPOS_NEIGHBOUR_NAMED, j};
    return (neighbour){GPOS_NEIGHBOUR_MISSING, l->glyphs->count};
}

static neighbour before(label *l, size_t i) {
    for (size_t j = i; j-- > 0;)
        if (gpos_get_slot(slot(l, j)).flags & GPOS_SLOT_SEEN)
            return (neighbour){GPOS_NEIGHBOUR_NAMED, j};
    return (neighbour){GPOS_NEIGHBOUR_MISSING, 0};
}

/* One subtable at slot i. */
static gpos_answer call(label *l, const lookup *k, bytes subtable, size_t i) {
    const uint8_t *s = subtable.at;
    size_t len = subtable.len, all = line_len(l);
    uint32_t d = direction(l), em = l->em_size, units = l->units_per_em;
    neighbour n = k->type == 2 ? after(l, i) : before(l, i);
    switch (k->type) {
    case 1: return gpos_single(l->line, all, SIZE, s, len, d, em, units, i);
    case 2: return gpos_pair(l->line, all, SIZE, s, len, d, em, units, i, n.missing, n.at);
    case 3:
        return gpos_cursive(l->line, all, SIZE, s, len, d, em, units, i, n.missing, n.at, k->flag);
    case 4: return gpos_mark_base(l->line, all, SIZE, s, len, d, em, units, i);
    case 5: return gpos_mark_ligature(l->line, all, SIZE, s, len, d, em, units, i);
    default: return gpos_mark_mark(l->line, all, SIZE, s, len, d, em, units, i, n.missing, n.at);
    }
}

/* The subtables at slot i, up to the first that applies. The slot to go on at. */
static size_t turn(label *l, const lookup *k, size_t i) {
    for (size_t n = 0; n < k->subtable_count; n++) {
        gpos_answer a = call(l, k, k->subtables[n], i);
        if (a.status == GPOS_STATUS_DECLINED) continue;
        if (a.status == GPOS_STATUS_APPLIED) {
            l->attached |= a.attached;
            note_taken(l, k, a.hazard, a.hazard_count);
            return a.next;
        }
        if (a.refusal != GPOS_REFUSED_ENDLESS) must("a call", a.refusal);
        l->endless = true;
        return l->glyphs->count;
    }
    return i + 1;
}

static void apply(label *l, const lookup *k) {
    if (!k->subtable_count) return;
    prepare(l, k);
    if (k->subtable_count <= GPOS_MOST_SUBTABLES)
        run(l, k);
    else /* more than a run takes: single calls, one after another */
        for (size_t i = 0; i < l->glyphs->count;) i = turn(l, k, i);
}

/* ---- The whole label */

void prepare_label(label *l, const font *f, const glyphs *g, const lookups *chosen) {
    l->glyphs = g;
    l->lookups = chosen;
    l->gdef = &f->gdef;
    l->units_per_em = l->em_size = f->units_per_em;
    l->keeps_old = l->sees_hidden = l->moves_after = false;
}

static void clear_advances(label *l) {
    for (size_t i = 0; i < l->glyphs->count; i++) {
        const glyph *g = &l->glyphs->at[i];
        gpos_slot s = gpos_get_slot(slot(l, i));
        s.glyph = (uint16_t)g->glyph;
        if (g->gdef_class == MARK || g->ignorable) s.x_advance = s.y_advance = 0;
        if (g->ignorable) s.x_offset = s.y_offset = 0; /* seen only by what hangs on it */
        gpos_put_slot(slot(l, i), s);
    }
}

void attach(label *l) {
    fill(l);
    if (!l->keeps_old) must("gpos_start", gpos_start(l->line, line_len(l), SIZE));
    l->attached = l->keeps_old;
    l->endless = false;
    memset(l->taken, 0, sizeof l->taken);
    for (size_t k = 0; k < l->lookups->count; k++) apply(l, &l->lookups->at[k]);
    clear_advances(l);
}

/* By how much a glyph is higher by the older rule: a mark by what its parent has moved up since the
   mark was attached, and each by what its parent is higher. */
static int32_t higher(const label *l, const places *p, size_t i, int depth) {
    int parent = l->parent[i];
    if (parent == NO_PARENT || !depth) return 0;
    int32_t since = l->is_mark[i] ? p->at[parent].y_offset - l->taken[i] : 0;
    return since + higher(l, p, (size_t)parent, depth - 1);
}

void finish(label *l, places *out) {
    static places now;
    now.count = l->glyphs->count;
    for (size_t i = 0; i < now.count; i++) {
        l->parent[i] = parent_of(l, i);
        l->is_mark[i] = gpos_get_slot(slot(l, i)).attach_type == GPOS_ATTACH_MARK;
    }
    must("gpos_finish", gpos_finish(l->line, line_len(l), SIZE, direction(l), GPOS_NESTING_LIMIT,
                                    l->attached));
    for (size_t i = 0; i < now.count; i++) {
        gpos_slot s = gpos_get_slot(slot(l, i));
        now.at[i] = (place){s.glyph, s.x_advance, s.y_advance, s.x_offset, s.y_offset};
    }
    *out = now;
    for (size_t i = 0; l->moves_after && i < now.count; i++)
        out->at[i].y_offset += higher(l, &now, i, GPOS_NESTING_LIMIT);
}

int64_t pen_places(const glyphs *g, const places *p, int64_t *pens) {
    int64_t pen = 0;
    for (size_t k = 0; k < p->count; k++) {
        size_t i = g->right_to_left ? p->count - 1 - k : k;
        pens[i] = pen;
        pen += p->at[i].x_advance;
    }
    return pen;
}
