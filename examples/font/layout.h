/* The lookup list, which GSUB and GPOS have alike. */
#ifndef LAYOUT_H
#define LAYOUT_H

#include "bytes.h"

#include <stdbool.h>

/* A lookup is an extension by another number in each; its subtables then only name the real type
   and, with 32 bits, the real subtable's place. */
enum { GSUB_EXTENSION = 7, GPOS_EXTENSION = 9 };

static inline unsigned lookup_count(bytes table) { return u16_at(part_at(table, 8), 0); }

static inline bytes lookup_at(bytes table, unsigned index) {
    return part_at(part_at(table, 8), 2 + 2 * (size_t)index);
}

static inline unsigned subtable_count(bytes lookup) { return u16_at(lookup, 4); }

static inline bool is_extension(bytes lookup, uint32_t extension) {
    return u16_at(lookup, 0) == extension;
}

/* Type and subtables, of an extension the real ones. */
static inline uint32_t type_of(bytes lookup, uint32_t extension) {
    return is_extension(lookup, extension) ? u16_at(part_at(lookup, 6), 2) : u16_at(lookup, 0);
}

static inline bytes subtable_at(bytes lookup, uint32_t extension, unsigned k) {
    bytes s = part_at(lookup, 6 + 2 * (size_t)k);
    return is_extension(lookup, extension) ? far_part_at(s, 4) : s;
}

#endif
