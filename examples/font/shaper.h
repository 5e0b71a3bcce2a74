/* HarfBuzz: opens the font, makes glyphs of text, and has its own word on where they go. All its
   numbers are in units of the font. */
#ifndef SHAPER_H
#define SHAPER_H

#include "gdef.h"

#include <hb-ot.h>
#include <hb.h>

typedef struct {
    unsigned faces; /* of the file */
    hb_face_t *face;
    hb_font_t *hb;
    hb_blob_t *gpos_blob, *gdef_blob;
    bytes gpos;
    gdef gdef;
    uint32_t units_per_em;
} font;

/* One run: one script and one direction. The language is a BCP 47 tag, or NULL. */
typedef struct {
    const char *utf8, *language;
} text;

/* A glyph as substitution has left it. */
typedef struct {
    uint32_t glyph, cluster;
    int32_t advance;
    uint32_t gdef_class, mark_class;
    uint8_t ligature_id, component;
    bool multiplied;
    bool ignorable; /* a default ignorable that no substitution has replaced */
    bool zwj;       /* one of these */
    bool hidden;    /* of these one that HarfBuzz 6 doesn't pass over: mostly CGJ */
} glyph;

/* In reading order, whatever the direction. */
typedef struct {
    size_t count;
    bool right_to_left;
    bool lacking; /* the font has no glyph for some character */
    hb_segment_properties_t run;
    glyph at[GPOS_MOST_SLOTS];
} glyphs;

/* Where a glyph goes. */
typedef struct {
    uint32_t glyph;
    int32_t x_advance, y_advance, x_offset, y_offset;
} place;

/* In reading order too. */
typedef struct {
    size_t count;
    place at[GPOS_MOST_SLOTS];
} places;

/* What HarfBuzz is to leave out of its positioning: lookups, by their numbers, and a kern table. */
typedef struct {
    const hb_set_t *lookups; /* NULL for none */
    bool kern_table;
} left_out;

enum { KERN_TABLE_NUMBER = 0x10000 }; /* beside the numbers of lookups */

/* HarfBuzz's shapers that may be taken: its own for OpenType, and no other library. */
extern const char *const by_opentype[];

/* The functions below answer NULL, or what is wrong, in words that last until the next call. */

/* Where the file itself can't be read, the font has no face; else it is to be closed. */
const char *open_font(font *f, const char *file, unsigned face);
void close_font(font *f);

/* What makes a text more than one run, or none, or of a script that this example isn't for. */
const char *wrong_text(const text *t);

/* Shapes with positioning switched off. The text must be right. */
const char *shape(const font *f, const text *t, glyphs *out);

/* The same font, but that the subtables at these offsets of GPOS have a format that is unknown, so
   that HarfBuzz passes over them. */
font font_without(const font *f, const hb_set_t *offsets);

/* Shapes with HarfBuzz's own positioning, less what is left out, in units of which `scale` make one
   em. Adds to `moved`, where it isn't NULL, the numbers of what moved a glyph. */
void position_by_harfbuzz(const font *f, const text *t, int scale, left_out without, places *out,
                          hb_set_t *moved);

#endif
