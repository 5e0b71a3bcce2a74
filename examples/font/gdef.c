#include "gdef.h"

gdef gdef_of(bytes table) {
    gdef g = {{NULL, 0}, {NULL, 0}, {NULL, 0}};
    if (u16_at(table, 0) != 1) return g; /* the major version; the minor one follows */
    g.classes = part_at(table, 4);
    g.mark_classes = part_at(table, 10);
    if (u16_at(table, 2) >= 2) g.mark_sets = part_at(table, 12);
    return g;
}

/* Ranges, as class lists and coverages of format 2 have them: first glyph, last glyph, a number.
   The range with the glyph, or an empty part. */
static bytes range_of(bytes ranges, uint32_t count, uint32_t glyph) {
    uint32_t low = 0, high = count;
    while (low < high) {
        uint32_t middle = (low + high) / 2;
        bytes range = part(ranges, 6 * (size_t)middle);
        if (glyph < u16_at(range, 0))
            high = middle;
        else if (glyph > u16_at(range, 2))
            low = middle + 1;
        else
            return range;
    }
    return (bytes){NULL, 0};
}

uint32_t class_of(bytes class_list, uint32_t glyph) {
    uint32_t first = u16_at(class_list, 2);
    switch (u16_at(class_list, 0)) {
    case 1:
        if (glyph < first || glyph - first >= u16_at(class_list, 4)) return 0;
        return u16_at(class_list, 6 + 2 * (size_t)(glyph - first));
    case 2: return u16_at(range_of(part(class_list, 4), u16_at(class_list, 2), glyph), 4);
    default: return 0;
    }
}

static bool covers(bytes coverage, uint32_t glyph) {
    uint32_t low = 0, high = u16_at(coverage, 2);
    if (u16_at(coverage, 0) == 2) return range_of(part(coverage, 4), high, glyph).len >= 6;
    if (u16_at(coverage, 0) != 1) return false;
    while (low < high) {
        uint32_t middle = (low + high) / 2, other = u16_at(coverage, 4 + 2 * (size_t)middle);
        if (other == glyph) return true;
        if (other < glyph)
            low = middle + 1;
        else
            high = middle;
    }
    return false;
}

bool in_mark_set(const gdef *g, uint32_t set, uint32_t glyph) {
    if (u16_at(g->mark_sets, 0) != 1 || set >= u16_at(g->mark_sets, 2)) return false;
    return covers(far_part_at(g->mark_sets, 4 + 4 * (size_t)set), glyph);
}
