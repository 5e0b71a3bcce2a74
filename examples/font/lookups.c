#include "lookups.h"
#include "layout.h"
#include "stop.h"

#include <string.h>

/* ---- Which are chosen: by script and language */

/* Features that HarfBuzz has on at every glyph, but for a few that go by direction or script, which
   no font was seen to have in GPOS. A font that has is noticed: its lookups aren't HarfBuzz's. */
static const char features[][5] = {"abvm", "blwm", "calt", "ccmp", "clig", "curs", "dist", "kern",
                                   "liga", "locl", "mark", "mkmk", "rclt", "rlig", "rvrn"};
enum { FEATURES = sizeof features / sizeof *features, AT_ONCE = 32 };

typedef struct {
    const font *font;
    unsigned script, language; /* numbers in the font's lists */
    unsigned count;            /* of the font's lookups */
    hb_tag_t *of;              /* for each lookup a feature that has it, or 0 */
    bool *sees_zwj;
} choice;

static void *got(size_t count, size_t size) {
    void *memory = calloc(count + 1, size);
    if (!memory) stop("lookups", "a font's", "out of memory");
    return memory;
}

static bool leaves_joiners(hb_tag_t tag) {
    return tag == HB_TAG('m', 'a', 'r', 'k') || tag == HB_TAG('m', 'k', 'm', 'k');
}

static void take_feature(choice *c, unsigned feature, hb_tag_t tag, bool sees_zwj) {
    unsigned found[AT_ONCE], n = AT_ONCE, variation;
    hb_ot_layout_table_find_feature_variations(c->font->face, HB_OT_TAG_GPOS, NULL, 0, &variation);
    for (unsigned from = 0; n == AT_ONCE; from += n) {
        hb_ot_layout_feature_with_variations_get_lookups(c->font->face, HB_OT_TAG_GPOS, feature,
                                                         variation, from, &n, found);
        for (unsigned k = 0; k < n; k++) {
            if (found[k] >= c->count) continue;
            if (!c->of[found[k]]) c->of[found[k]] = tag;
            c->sees_zwj[found[k]] |= sees_zwj;
        }
    }
}

static void find_language(choice *c, const hb_segment_properties_t *run) {
    hb_tag_t scripts[HB_OT_MAX_TAGS_PER_SCRIPT], languages[HB_OT_MAX_TAGS_PER_LANGUAGE];
    unsigned script_count = HB_OT_MAX_TAGS_PER_SCRIPT;
    unsigned language_count = HB_OT_MAX_TAGS_PER_LANGUAGE;
    hb_ot_tags_from_script_and_language(run->script, run->language, &script_count, scripts,
                                        &language_count, languages);
    hb_ot_layout_table_select_script(c->font->face, HB_OT_TAG_GPOS, script_count, scripts,
                                     &c->script, NULL);
    hb_ot_layout_script_select_language(c->font->face, HB_OT_TAG_GPOS, c->script, language_count,
                                        languages, &c->language);
}

static void take_features(choice *c) {
    hb_face_t *face = c->font->face;
    unsigned feature;
    hb_tag_t tag;
    if (hb_ot_layout_language_get_required_feature(face, HB_OT_TAG_GPOS, c->script, c->language,
                                                   &feature, &tag))
        take_feature(c, feature, tag, false); /* whatever its tag */
    for (size_t k = 0; k < FEATURES; k++) {
        tag = hb_tag_from_string(features[k], -1);
        if (hb_ot_layout_language_find_feature(face, HB_OT_TAG_GPOS, c->script, c->language, tag,
                                               &feature))
            take_feature(c, feature, tag, leaves_joiners(tag));
    }
}

/* Whether these are what HarfBuzz has in its plan for the run. */
static bool as_in_plan(const choice *c, const hb_segment_properties_t *run) {
    hb_set_t *planned = hb_set_create(), *chosen = hb_set_create();
    hb_shape_plan_t *plan = hb_shape_plan_create_cached(c->font->face, run, NULL, 0, by_opentype);
    hb_ot_shape_plan_collect_lookups(plan, HB_OT_TAG_GPOS, planned);
    for (unsigned k = 0; k < c->count; k++)
        if (c->of[k]) hb_set_add(chosen, k);
    bool same = hb_set_is_equal(planned, chosen);
    hb_shape_plan_destroy(plan);
    hb_set_destroy(planned);
    hb_set_destroy(chosen);
    return same;
}

/* ---- What the library is given of one */

/* Refusal 6 of one subtable: a run of it alone over an empty line tells. */
static bool is_refused(uint32_t type, bytes s, size_t len) {
    gpos_run r = gpos_lookup(NULL, 0, GPOS_PLAIN_SIZE, type, 0, s.at, len, &len, 1, 0, 1, 1000,
                             NULL, 0);
    return r.refusal != GPOS_DONE;
}

static void add_subtable(lookup *l, bytes s) {
    s.len = gpos_subtable_len(s.len, 0);
    if (is_refused(l->type, s, s.len)) {
        l->refused++;
        return;
    }
    l->lens[l->subtable_count] = s.len;
    l->subtables[l->subtable_count++] = s;
}

static void put_end_to_end(lookup *l) {
    size_t len = 0;
    for (size_t k = 0; k < l->subtable_count; k++) len += l->lens[k];
    l->end_to_end = got(len, 1);
    for (size_t k = 0; k < l->subtable_count; k++) {
        memcpy(l->end_to_end + l->end_to_end_len, l->subtables[k].at, l->lens[k]);
        l->end_to_end_len += l->lens[k];
    }
}

bool is_contextual(const lookup *l) { return l->type == 7 || l->type == 8; }

static lookup loaded(bytes table, unsigned index, hb_tag_t feature, bool sees_zwj) {
    unsigned count = subtable_count(table);
    lookup l = {.index = index, .feature = feature, .sees_zwj = sees_zwj};
    l.type = type_of(table, GPOS_EXTENSION);
    l.flag = u16_at(table, 2);
    l.mark_set = u16_at(table, 6 + 2 * (size_t)count);
    if (l.type < 1 || l.type > 6) return l; /* not in the library */
    l.subtables = got(count, sizeof *l.subtables);
    l.lens = got(count, sizeof *l.lens);
    for (unsigned k = 0; k < count; k++)
        add_subtable(&l, subtable_at(table, GPOS_EXTENSION, k));
    if (l.subtable_count <= GPOS_MOST_SUBTABLES) put_end_to_end(&l);
    return l;
}

/* Where the subtables are that the library refuses, so that HarfBuzz can pass over them too. */
static void note_refused(lookups *all, const lookup *l, bytes gpos) {
    bytes table = lookup_at(gpos, l->index);
    for (unsigned k = 0; l->refused && k < subtable_count(table); k++) {
        bytes s = subtable_at(table, GPOS_EXTENSION, k);
        if (s.len > 2 && is_refused(l->type, s, gpos_subtable_len(s.len, 0)))
            hb_set_add(all->refused, (hb_codepoint_t)(s.at - gpos.at));
    }
}

lookups choose_lookups(const font *f, const hb_segment_properties_t *run) {
    unsigned count = hb_ot_layout_table_get_lookup_count(f->face, HB_OT_TAG_GPOS);
    choice c = {.font = f, .count = count};
    c.of = got(count, sizeof *c.of);
    c.sees_zwj = got(count, sizeof *c.sees_zwj);
    find_language(&c, run);
    take_features(&c);
    lookups all = {0, got(count, sizeof *all.at), as_in_plan(&c, run), hb_set_create()};
    for (unsigned k = 0; k < count; k++) {
        if (!c.of[k]) continue;
        all.at[all.count] = loaded(lookup_at(f->gpos, k), k, c.of[k], c.sees_zwj[k]);
        note_refused(&all, &all.at[all.count++], f->gpos);
    }
    free(c.of);
    free(c.sees_zwj);
    return all;
}

void free_lookups(lookups *l) {
    for (size_t k = 0; k < l->count; k++) {
        free(l->at[k].lens);
        free(l->at[k].subtables);
        free(l->at[k].end_to_end);
    }
    free(l->at);
    hb_set_destroy(l->refused);
}
