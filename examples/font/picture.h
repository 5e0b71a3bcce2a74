/* A label as an SVG picture: outlines (of glyphs that hang on another in red), pen places, what
   hangs on what; and in pale grey those of HarfBuzz that are elsewhere. */
#ifndef PICTURE_H
#define PICTURE_H

#include "label.h"

#include <stdio.h>

/* Writes it; false if that fails. */
bool draw_picture(FILE *out, const font *f, const text *t, const label *l, const places *ours,
                  const places *theirs);

#endif
