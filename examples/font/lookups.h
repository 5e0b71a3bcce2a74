/* The lookups of a font that are for a run of text, in the order in which they are applied. */
#ifndef LOOKUPS_H
#define LOOKUPS_H

#include "shaper.h"

typedef struct {
    unsigned index;      /* in the font's lookup list */
    hb_tag_t feature;    /* one that has it */
    bool sees_zwj;       /* it is in the feature mark or mkmk */
    uint32_t type, flag; /* the type behind an extension, where it is one */
    uint32_t mark_set;   /* if the flag says that there is one */
    size_t subtable_count, refused; /* those for the library; and those that it refuses, with 6 */
    bytes *subtables;
    uint8_t *end_to_end; /* the same, if they aren't more than a run takes */
    size_t end_to_end_len, *lens;
} lookup;

typedef struct {
    size_t count;
    lookup *at;
    bool as_harfbuzz;  /* HarfBuzz takes the same ones */
    hb_set_t *refused; /* offsets in GPOS of subtables that are refused */
} lookups;

lookups choose_lookups(const font *f, const hb_segment_properties_t *run);
void free_lookups(lookups *l);

/* Types 7 and 8, which are not in the library. */
bool is_contextual(const lookup *l);

#endif
