/* What the font's GDEF table says of a glyph. */
#ifndef GDEF_H
#define GDEF_H

#include "bytes.h"

#include <stdbool.h>

enum { BASE = 1, LIGATURE = 2, MARK = 3 }; /* classes of glyphs */

typedef struct {
    bytes classes, mark_classes, mark_sets; /* empty where the table has none */
} gdef;

gdef gdef_of(bytes table);

/* The class that a class list gives the glyph, 0 if none. */
uint32_t class_of(bytes class_list, uint32_t glyph);

/* Whether the glyph is in the set of marks of this number. */
bool in_mark_set(const gdef *g, uint32_t set, uint32_t glyph);

#endif
