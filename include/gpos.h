/* gpos.h: glyph positioning (OpenType GPOS) on a line of glyph slots.
 *
 * GUIDE.md (in the repository's docs/, installed in share/doc/gpos/) leads from shaped glyphs to a
 * drawn label, with the code around the calls; this file says what each call takes and does. Link
 * with libgpos_c. It is for x86-64 Linux, allocates nothing, keeps no state, calls nothing, needs
 * no other library, and may be used from any number of threads at once.
 *
 * A label, or each run of it that has one font, one script and one direction, is a LINE: up to
 * 1,024 glyph slots, one after the other, in memory that you lend for the call. The way of a line:
 *
 *     gpos_start                       forget old attachments
 *     for each lookup, in the order of the font's lookup list:
 *         set GPOS_SLOT_SEEN on the glyphs that it sees
 *         gpos_lookup                  run it over the line
 *     set the advances of marks and of default ignorables to 0 (if your shaper does; most do)
 *     gpos_finish                      turn attachments into offsets
 *     draw                             (default ignorables aren't shown)
 *
 * NOT IN THE LIBRARY: lookup types 7 and 8 (contextual). Labels whose lookups have these types come
 * out incomplete: Urdu in Nastaliq, and many other Arabic fonts. Type 9 (extension) you unwrap:
 * pass the subtable that it leads to, by the type that it names. Nor are here: the choice of
 * lookups by script, language and feature; device and variation deltas; a `kern` table; setting
 * advances to 0; vertical origins; a scale of its own for y, or a negative one.
 *
 *
 * THE SLOT. Numbers are big-endian; signed ones are in two's complement. No slot needs to be
 * aligned. gpos_get_slot and gpos_put_slot, at the end of this file, read and write one.
 *
 *     byte   0-1     glyph
 *            2       ligature id, 0 to 7
 *            3       component, 0 to 15
 *            4       flags: GPOS_SLOT_SEEN, GPOS_SLOT_MARK, GPOS_SLOT_MULTIPLIED; other bits are 0
 *            5       attach type: GPOS_ATTACH_MARK, GPOS_ATTACH_CURSIVE; any byte is allowed
 *            6-7     chain, signed: 0 is "not attached", else the parent is so many slots further
 *            8-11    x advance, signed          12-15   y advance, signed
 *            16-19   x offset, signed           20-23   y offset, signed
 *            24-27   cluster, unsigned, in a slot of 28 bytes
 *
 * Size: all slots of a line have 24 bytes, or all have 28, with a cluster. A line doesn't show
 * which (168 bytes may be seven slots of 24, or six of 28), so every call but a move is told.
 *
 * Order: slots are in READING ORDER in every direction, also right to left. A mark comes after the
 * glyph that it stands on.
 *
 * Drawing: left to right and top to bottom from slot 0 up; right to left and bottom to top from the
 * LAST slot DOWN, so that the pen goes left to right, or downward, all the same. Draw each glyph at
 * pen plus offset, then move the pen by the slot's advances.
 *
 * Units: em_size units make one em, in advances and offsets alike; y grows upward, as in the font.
 * Before gpos_start a slot has the advance of its glyph, at this size (scaling it is yours): on x
 * in horizontal text; in vertical text on y, negative, since the pen goes down. Its other advance
 * is 0. Its offsets are 0; in vertical text they are minus the glyph's vertical origin, so that a
 * mark goes by its base's origin. Subtracted when drawing, origins would misplace attached marks.
 *
 * Ligature id and component are what substitution (GSUB) leaves, and yours to set. Where glyphs
 * become a ligature, the ligature and the marks that stood between its components get the same id,
 * which the next ligature doesn't get (1 to 7 in turn); the ligature has component 0, and such a
 * mark the number of the component before it, from 1. Where a ligature becomes part of a larger
 * one, its marks get the new id, and their components are counted on. A ligature of marks alone
 * keeps id and component of its first mark, one of a letter and its marks those of the letter.
 * Where one glyph becomes several, each gets GPOS_SLOT_MULTIPLIED and, if the glyph had id 0, as
 * its component its place among them, from 0, modulo 16; with another id each keeps id and
 * component. Any other glyph has 0 and 0, a mark behind a ligature's last component too. A mark
 * with the ligature's id and a component goes to that component, any other mark to the last one;
 * and marks are stacked where they stand on the same letter or component (gpos_mark_mark).
 *
 * The cluster says which letter the glyph came from. It is yours to set, to any number: say, the
 * index in the text of the letter's first character. No call but the two moves looks at a cluster
 * or writes it: on slots of 28 bytes a call says what it says on the same slots without clusters,
 * and leaves the other 24 bytes of each as it leaves them there. That is proved of each call but
 * gpos_lookup, which is made of them.
 *
 *
 * WHAT A CALL ANSWERS. gpos_start, gpos_finish and the moves return GPOS_DONE, which is 0, or the
 * number of a refusal. The others return a gpos_answer: applied, declined, or refused with a
 * number; and gpos_lookup a gpos_run. Where a call declines or refuses, no byte of the line, of the
 * list or of a move's target has changed, but for a run that stops at refusal 7. A subtable never
 * changes, nor does a line that is moved. The lowest number that applies is given (by gpos_lookup
 * 8 before 6):
 *
 *     1   GPOS_REFUSED_LINE        the slot size is neither 24 nor 28; or the line's length is no
 *                                  multiple of it, or above 24,576 for slots of 24 bytes, 28,672
 *                                  for slots of 28
 *     2   GPOS_REFUSED_DIRECTION   the direction is above 3
 *     3   GPOS_REFUSED_RANGE       em_size is not from 1 to 32,768, units_per_em is not from 16 to
 *                                  16,384, or nesting_limit is above 64
 *     4   GPOS_REFUSED_SLOT        some slot's ligature id, component or spare flag bits are out of
 *                                  range
 *     5   GPOS_REFUSED_INDEX       the line has no such index; second doesn't follow it, or is past
 *                                  the line; previous or earlier doesn't precede it; the bound of
 *                                  a missing one is above the number of slots
 *     6   GPOS_REFUSED_SUBTABLE    the subtable is over 65,536 bytes, its fixed header is cut, its
 *                                  format is unknown, a value format is above 255, or one of its
 *                                  coverage or class lists is cut, unknown or out of order; other
 *                                  parts that are cut are as good as missing. Of a lookup: one of
 *                                  its subtables is so, or its type is not from 1 to 6
 *     7   GPOS_REFUSED_ENDLESS     what a mark goes on, base, ligature or mark, hangs on a ring of
 *                                  cursive attachments
 *     8   GPOS_REFUSED_LIST        a lookup hasn't 1 to 8 subtables, their lengths don't add up to
 *                                  the buffer, or its list has fewer places than twice the slots
 *                                  times the subtables
 *    10   GPOS_REFUSED_MOVE        the target of a move doesn't have the length of the moved line;
 *                                  or, moving back, a cluster isn't its slot's number and would be
 *                                  lost
 *
 * 1 to 5, 8 and 10 are the caller's bug (3 also a font's, if its unitsPerEm is out of range): stop,
 * and mend the call. 6 is a bad font, a subtable of another type (which is not always noticed), or
 * more than 65,536 bytes passed (gpos_subtable_len has how many): pass over the subtable, as if it
 * had declined, or leave it out of the lookup. 7, if the line was started, is a font whose cursive
 * lookups hang glyphs in a ring: pass over likewise. If it wasn't, don't draw it: start it. The
 * number 9 is not given.
 *
 *
 * WHAT YOU GUARANTEE, and nothing checks:
 *
 *   - each pointer leads to as much as you say: bytes, lengths, places (NULL with 0 is fine);
 *   - what a call writes (line, list, target of a move) overlaps nothing else that it is lent;
 *   - a lookup's list and lengths are aligned as C aligns them;
 *   - nobody else writes to what you lend, or reads what the call writes, while the call runs;
 *   - there is stack: gpos_cursive takes up to 648 bytes and 80 for each slot of the line, when an
 *     old chain goes through all of it (82,568 bytes for 1,024 slots); gpos_finish some 48 for each
 *     level of the nesting limit, 3,152 at most; gpos_lookup took up to 1,432, and for type 3 some
 *     800 more than gpos_cursive; the other calls took up to 888 where they were measured, one call
 *     of each, applied or done. No proof covers the depth of the stack.
 *
 * Everything else may have any value: every number is tested, and every byte of line and subtable
 * may be anything. The library is proved to end, to stay inside what it is lent, and to answer and
 * write exactly what its contracts say. That this file declares the same functions and structs as
 * the library is not proved.
 *
 * COST. Every call reads all slots of the line (some 2 instructions a slot), and every call that
 * applies a subtable all its coverage and class lists (some 11 and 20 an entry), also where it
 * declines. gpos_lookup does both once for the whole line, and goes over its slots once, so that
 * its cost grows as the line does, but for chains of cursive glyphs: each mark follows its base's,
 * and each join may reverse an old one. SPEED.md, beside GUIDE.md, has counts. */
#ifndef GPOS_H
#define GPOS_H

#include <stddef.h>
#include <stdint.h>

#ifdef __cplusplus
extern "C" {
#endif

/* The version of this file and of the library that was installed with it. Up to 0.3.0 a number at a
 * tie of the scale (below) went up; from 0.4.0 on it goes away from zero. gpos_lookup came with
 * 0.5.0. */
#define GPOS_VERSION "0.5.0"
#define GPOS_VERSION_MAJOR 0
#define GPOS_VERSION_MINOR 5
#define GPOS_VERSION_PATCH 0

/* Bytes of a slot, without a cluster and with one; the most slots in a line; the most bytes of a
 * subtable; and the nesting limit that shapers use. */
#define GPOS_PLAIN_SIZE 24
#define GPOS_CLUSTERED_SIZE 28
#define GPOS_MOST_SLOTS 1024
#define GPOS_MOST_SUBTABLE 65536
#define GPOS_NESTING_LIMIT 64

/* Calls take and give plain numbers, so that any may be passed; these are their names. */

/* Directions of text. */
typedef enum {
    GPOS_DIRECTION_LEFT_TO_RIGHT = 0,
    GPOS_DIRECTION_RIGHT_TO_LEFT = 1,
    GPOS_DIRECTION_TOP_TO_BOTTOM = 2,
    GPOS_DIRECTION_BOTTOM_TO_TOP = 3
} gpos_direction;

/* Bits of a slot's flags. */
typedef enum {
    /* Where a lookup looks for another glyph beside the one at hand, it takes the nearest that is
     * seen. gpos_lookup goes by it for pairs, cursive glyphs and marks on marks; gpos_mark_base and
     * gpos_mark_ligature, in a run or not, when they search for what the mark goes on; other single
     * calls don't look at it. Before each lookup clear it on what the search is to pass over:
     * default ignorables (ZWNJ, CGJ, SHY and all others that Unicode calls so, unless a
     * substitution made another glyph of one); for types 2 and 3 also glyphs that the lookup's flag
     * skips; for types 4 and 5 marks, whatever the flag, and glyphs outside the lookup's feature;
     * for type 6 marks that the flag leaves out by class or by set; and set it on all others.
     * ZWJ is a default ignorable too, but in lookups of the features mark and mkmk HarfBuzz leaves
     * it seen: a mark behind a ZWJ stays where it is. */
    GPOS_SLOT_SEEN = 1,
    /* The glyph is a mark: class 3 of GDEF. It doesn't hide the glyph from the search; a clear
     * GPOS_SLOT_SEEN does. gpos_mark_mark puts a mark on no glyph without it. */
    GPOS_SLOT_MARK = 2,
    /* The glyph is one of several that a substitution made of one. A mark behind them goes to the
     * first of them, unless the subtable covers another, or, for gpos_mark_base, a slot stands
     * between them that is a mark or isn't one of them. */
    GPOS_SLOT_MULTIPLIED = 4
} gpos_slot_flag;

/* How a slot hangs on its parent. */
typedef enum {
    GPOS_ATTACH_NONE = 0,
    GPOS_ATTACH_MARK = 1,
    GPOS_ATTACH_CURSIVE = 2
} gpos_attach_type;

/* Bits of a lookup's flag. gpos_cursive looks at the first, which has nothing to do with the
 * direction of the text; the others say which glyphs the lookup skips, and skipping is yours to do:
 * bases, ligatures or marks (classes 1, 2 and 3 of GDEF); or all marks but those of one class,
 * which the flag's high byte names, or of one set. */
typedef enum {
    GPOS_LOOKUP_RIGHT_TO_LEFT = 1,
    GPOS_LOOKUP_IGNORE_BASES = 2,
    GPOS_LOOKUP_IGNORE_LIGATURES = 4,
    GPOS_LOOKUP_IGNORE_MARKS = 8,
    GPOS_LOOKUP_USE_MARK_FILTERING_SET = 16,
    GPOS_LOOKUP_MARK_ATTACHMENT_CLASS = 0xFF00
} gpos_lookup_flag;

/* Whether the other glyph of a pair, of a cursive attachment or of a mark on a mark is there. */
typedef enum { GPOS_NEIGHBOUR_NAMED = 0, GPOS_NEIGHBOUR_MISSING = 1 } gpos_neighbour;

/* What an applying call did. */
typedef enum {
    GPOS_STATUS_APPLIED = 1,
    GPOS_STATUS_DECLINED = 2,
    GPOS_STATUS_REFUSED = 3
} gpos_status;

/* The numbers of refusals, and 0, which is none. */
typedef enum {
    GPOS_DONE = 0,
    GPOS_REFUSED_LINE = 1,
    GPOS_REFUSED_DIRECTION = 2,
    GPOS_REFUSED_RANGE = 3,
    GPOS_REFUSED_SLOT = 4,
    GPOS_REFUSED_INDEX = 5,
    GPOS_REFUSED_SUBTABLE = 6,
    GPOS_REFUSED_ENDLESS = 7,
    GPOS_REFUSED_LIST = 8,
    GPOS_REFUSED_MOVE = 10
} gpos_refusal;

/* What would look different: a line broken there, or texts shaped apart and put together there. */
typedef enum { GPOS_UNSAFE_TO_BREAK = 1, GPOS_UNSAFE_TO_CONCAT = 2 } gpos_hazard_kind;

/* The glyphs from start up to end, end not included, depend on each other. You may ignore hazards
 * unless you break lines or keep shaped pieces of text. A range is as the lookup names it: it may
 * reach past the line's end, and with the bound of a missing glyph it may be empty or even have its
 * end before its start. */
typedef struct {
    uint32_t kind; /* GPOS_UNSAFE_TO_BREAK or GPOS_UNSAFE_TO_CONCAT */
    size_t start;
    size_t end;
} gpos_hazard;

/* What an applying call answers. What a case doesn't have is 0; padding may hold anything. */
typedef struct {
    uint32_t status;       /* GPOS_STATUS_APPLIED, GPOS_STATUS_DECLINED or GPOS_STATUS_REFUSED */
    uint32_t refusal;      /* refused: its number, 1 to 7 */
    uint32_t attached;     /* applied: 1 if a glyph was attached, so that gpos_finish is needed */
    uint32_t hazard_count; /* applied: 0 to 2; declined: 0 or 1 */
    size_t next;           /* applied: the index to go on at, above index, at most the slot count */
    gpos_hazard hazard[2]; /* in the order in which they arise */
} gpos_answer;

/* What gpos_lookup answers. What a case doesn't have is 0. */
typedef struct {
    uint32_t refusal;  /* GPOS_DONE, or 1, 2, 3, 4, 8, 6; or 7: stopped at index */
    uint32_t attached; /* done: 1 if some call attached, so that gpos_finish is needed; stopped: 0,
                          though some call may have */
    size_t index;      /* stopped: the slot whose call was refused with 7 */
    size_t count;      /* done or stopped: how many hazards were put into the list */
} gpos_run;

#if defined(__cplusplus)
#define GPOS_LAYOUT(holds) static_assert(holds, "the layout that the library has")
#elif defined(__STDC_VERSION__) && __STDC_VERSION__ >= 201112L
#define GPOS_LAYOUT(holds) _Static_assert(holds, "the layout that the library has")
#endif
#ifdef GPOS_LAYOUT
GPOS_LAYOUT(sizeof(size_t) == 8);
GPOS_LAYOUT(sizeof(gpos_hazard) == 24 && offsetof(gpos_hazard, kind) == 0);
GPOS_LAYOUT(offsetof(gpos_hazard, start) == 8 && offsetof(gpos_hazard, end) == 16);
GPOS_LAYOUT(sizeof(gpos_answer) == 72 && offsetof(gpos_answer, status) == 0);
GPOS_LAYOUT(offsetof(gpos_answer, refusal) == 4 && offsetof(gpos_answer, attached) == 8);
GPOS_LAYOUT(offsetof(gpos_answer, hazard_count) == 12 && offsetof(gpos_answer, next) == 16);
GPOS_LAYOUT(offsetof(gpos_answer, hazard) == 24);
GPOS_LAYOUT(sizeof(gpos_run) == 24 && offsetof(gpos_run, refusal) == 0);
GPOS_LAYOUT(offsetof(gpos_run, attached) == 4 && offsetof(gpos_run, index) == 8);
GPOS_LAYOUT(offsetof(gpos_run, count) == 16);
#undef GPOS_LAYOUT
#endif

/* ---- Starting and finishing a line */

/* Starts a line: sets every chain and attach type to 0, and changes nothing else. Without it an old
 * attachment would pull a glyph to another place. An empty line is done. slot_size, here and below,
 * is GPOS_PLAIN_SIZE or GPOS_CLUSTERED_SIZE.
 * Returns GPOS_DONE, or refusal 1 or 4. */
uint32_t gpos_start(uint8_t *line, size_t line_len, size_t slot_size);

/* Finishes a line, once, after its last lookup: turns attachments into offsets, parents first, and
 * sets every chain to 0. A mark is moved with its base, a cursive glyph across the line with its
 * neighbour. nesting_limit, 0 to 64, is how many parents are followed from a slot: pass
 * GPOS_NESTING_LIMIT. attachments says whether some call attached (the attached field of its
 * answer): 0 leaves the line as it is, chains too; any other number finishes, which changes nothing
 * where no slot is attached. Loops and parents outside the line do no harm.
 * Returns GPOS_DONE, or refusal 1, 2, 3 or 4. */
uint32_t gpos_finish(uint8_t *line, size_t line_len, size_t slot_size, uint32_t direction,
                     uint32_t nesting_limit, uint32_t attachments);

/* ---- Running a lookup over a line */

/* What a lookup may have, and how many places its list of hazards must have. */
#define GPOS_MOST_SUBTABLES 8
#define GPOS_PLACES(slot_count, subtable_count) (2 * (slot_count) * (subtable_count))

/* Runs a lookup over the line: at each slot, from slot 0 up, its subtables are tried in their
 * order, and the first that applies wins and says at which slot to go on; where all decline, that
 * is the next one. The result is that of the calls below, made one after another; but line and
 * subtables are checked once.
 * lookup_type is OpenType's, 1 to 6 (type 9 you unwrap). The 1 to 8 subtables lie end to end in one
 * buffer, and subtable_lens has their lengths, which must add up to it; each sees its own bytes
 * only. (How long a subtable is: see below.)
 * Neighbours go by GPOS_SLOT_SEEN, which you set for each lookup before it runs: the second glyph
 * of a pair is the next seen slot; what a cursive glyph joins, or an earlier mark, the last seen
 * slot before. The slot at hand is tried whether it is seen or not: give a glyph that the lookup
 * isn't for (its flag skips it, or it is outside its feature) the number 0xFFFF, which is no glyph
 * of a font, while the lookup runs, and its own again afterwards; but for types 4 and 5 not a glyph
 * that is seen, since a mark may go on it.
 * The hazards of every call made, also of those that declined, go into `list` in the order in which
 * they arise; its places behind these keep what they held, and of a record that is written bytes 4
 * to 7, which are padding, may hold anything. It must have twice as many places as slots times
 * subtables (GPOS_PLACES; 384 KiB for the longest line and 8 subtables), also if you ignore
 * hazards. An empty line has none, but its subtables are checked all the same.
 * A lookup of more than 8 subtables is run by single calls: two runs would not be the same.
 * Returns GPOS_DONE; or refusal 1, 2, 3, 4, 8 or 6, the first of these in this order, and line
 * and list are untouched. Which subtable is bad, a lookup of each alone on an empty line tells
 * (line and list may be NULL then): leave it out. Where a single call would be refused with 7,
 * the run stops: refusal is 7, and line and list are as the calls before left them; at index no
 * subtable was applied, and the slots behind it have not been tried. Go on with the next lookup,
 * and pass attachments 1 to gpos_finish: attached is 0 here, though calls before may have
 * attached. */
gpos_run gpos_lookup(uint8_t *line, size_t line_len, size_t slot_size, uint32_t lookup_type,
                     uint32_t lookup_flag, const uint8_t *subtables, size_t subtables_len,
                     const size_t *subtable_lens, size_t subtable_count, uint32_t direction,
                     uint32_t em_size, uint32_t units_per_em, gpos_hazard *list, size_t places);

/* ---- Applying a subtable at a glyph
 *
 * Each call takes the line and the size of its slots; one GPOS subtable of its lookup type; the
 * direction of the text; the scale; and the index of the slot at which to apply.
 *
 * The subtable's bytes go from its format field to the END OF THE GPOS TABLE, at most 65,536 of
 * them (gpos_subtable_len, below): OpenType gives a subtable no length. What a font keeps farther
 * off than that counts as cut.
 *
 * The scale: em_size units of the line make one em, and units_per_em of the font (its unitsPerEm).
 * A number v of the font becomes v em_size / units_per_em, rounded to the nearest whole number, a
 * tie away from zero: at half size (500 / 1000) 3 becomes 2, and -3 becomes -2, so that -v always
 * becomes minus what v becomes. Values of records and coordinates of cursive anchors are scaled one
 * by one; of the anchors of a mark and of what it goes on, the difference is. */

/* Single adjustment (lookup type 1): adds a value record to the glyph. In vertical text a record's
 * y advance, which counts downward, is subtracted. A record that the subtable's end cuts is applied
 * and adds nothing.
 * Declined where the glyph is uncovered or has no record, without a hazard. */
gpos_answer gpos_single(uint8_t *line, size_t line_len, size_t slot_size, const uint8_t *subtable,
                        size_t subtable_len, uint32_t direction, uint32_t em_size,
                        uint32_t units_per_em, size_t index);

/* Pair adjustment (lookup type 2): adds value records to the glyph and to the second glyph, which
 * you name: search from index + 1 up, pass over default ignorables and glyphs that the lookup's
 * flag skips, and take the first that is left, if it is in the lookup's feature.
 * second_missing is GPOS_NEIGHBOUR_NAMED, and second its slot; or there is none: it is
 * GPOS_NEIGHBOUR_MISSING (or any number but 0), and second, which only a hazard tells back, is one
 * past the last slot that you looked at. If you ignore hazards, pass the slot count.
 * Declined where the glyph is uncovered or has no pair set, or the set is cut where the pair was
 * looked for, without a hazard; where there is no second glyph or the pair has no record, with
 * GPOS_UNSAFE_TO_CONCAT. A pair whose values are zero is applied; so is one of format 1 whose
 * records the subtable's end cuts, and a cut record adds nothing. */
gpos_answer gpos_pair(uint8_t *line, size_t line_len, size_t slot_size, const uint8_t *subtable,
                      size_t subtable_len, uint32_t direction, uint32_t em_size,
                      uint32_t units_per_em, size_t index, uint32_t second_missing, size_t second);

/* Cursive attachment (lookup type 3): joins the glyph's entry anchor to the exit anchor of the
 * previous glyph, which you name: search from index - 1 down, and pass over and take as for a pair.
 * previous_missing is GPOS_NEIGHBOUR_NAMED, and previous its slot; or there is none: it is
 * GPOS_NEIGHBOUR_MISSING (or any number but 0), and previous, which only a hazard tells back, is 0;
 * or, if a glyph outside the feature at a slot i above 0 ended the search, i - 1. If you ignore
 * hazards, pass 0. lookup_flag is the lookup's: only GPOS_LOOKUP_RIGHT_TO_LEFT is looked at.
 * Declined where either glyph is uncovered or this one has no entry anchor, without a hazard; where
 * there is no previous glyph or it has no exit anchor, with GPOS_UNSAFE_TO_CONCAT. */
gpos_answer gpos_cursive(uint8_t *line, size_t line_len, size_t slot_size, const uint8_t *subtable,
                         size_t subtable_len, uint32_t direction, uint32_t em_size,
                         uint32_t units_per_em, size_t index, uint32_t previous_missing,
                         size_t previous, uint32_t lookup_flag);

/* Mark-to-base attachment (lookup type 4): attaches the mark at index to the nearest base before it
 * that is seen (GPOS_SLOT_SEEN says on which glyphs to set that).
 * Declined where the mark is uncovered, there is no base coverage, or an array or an anchor is
 * missing, without a hazard; where no base is found or it is uncovered, with
 * GPOS_UNSAFE_TO_CONCAT. */
gpos_answer gpos_mark_base(uint8_t *line, size_t line_len, size_t slot_size,
                           const uint8_t *subtable, size_t subtable_len, uint32_t direction,
                           uint32_t em_size, uint32_t units_per_em, size_t index);

/* Mark-to-ligature attachment (lookup type 5): attaches the mark at index to its component of the
 * nearest ligature before it that is seen.
 * Declined as gpos_mark_base is, and with GPOS_UNSAFE_TO_CONCAT where the ligature has no
 * components. */
gpos_answer gpos_mark_ligature(uint8_t *line, size_t line_len, size_t slot_size,
                               const uint8_t *subtable, size_t subtable_len, uint32_t direction,
                               uint32_t em_size, uint32_t units_per_em, size_t index);

/* Mark-to-mark attachment (lookup type 6): attaches the mark at index to an earlier mark, which you
 * name: search from index - 1 down, and pass over default ignorables (but not ZWJ in the features
 * mark and mkmk) and marks that the lookup's flag leaves out by class or by set. Pass over nothing
 * else, neither bases nor ligatures nor marks, though the flag may have an IGNORE bit for them:
 * take the first that is left, mark or not, if it is in the lookup's feature.
 * earlier_missing is GPOS_NEIGHBOUR_NAMED, and earlier its slot; or there is none: it is
 * GPOS_NEIGHBOUR_MISSING (or any number but 0), and earlier, which only a hazard tells back, is 0;
 * or, if a glyph outside the feature at a slot i above 0 ended the search, i - 1. If you ignore
 * hazards, pass 0. The call doesn't look at GPOS_SLOT_SEEN.
 * The two go together where their ligature ids are equal, and either are 0 or the components are
 * equal too; and where the ids differ, if one of the two is a mark that is a ligature of glyphs not
 * all marks: its id isn't 0 and its component is (one of marks alone has no id of its own).
 * Applied, the mark has both offsets anew and hangs on the earlier mark alone, whatever it hung on
 * before: so a font may first put it on its base, by type 4.
 * Declined where the mark is uncovered, without a hazard; where there is no earlier glyph, it isn't
 * a mark (GPOS_SLOT_MARK) or the two don't go together, with GPOS_UNSAFE_TO_CONCAT; after that,
 * where the earlier mark is uncovered, or an array or an anchor is missing, without a hazard. */
gpos_answer gpos_mark_mark(uint8_t *line, size_t line_len, size_t slot_size,
                           const uint8_t *subtable, size_t subtable_len, uint32_t direction,
                           uint32_t em_size, uint32_t units_per_em, size_t index,
                           uint32_t earlier_missing, size_t earlier);

/* ---- Moving a line to slots of the other size
 *
 * The line is only read, and its slots are written to the target, whose length must be exactly that
 * of the moved line: line_len / 24 * 28 to slots with a cluster, line_len / 28 * 24 back. There and
 * back again the bytes are the same. An empty line, moved to an empty target, is done. */

/* Moves a line of 24-byte slots to 28-byte ones: each slot's 24 bytes, and as its cluster its
 * number, from 0. Set your own clusters afterwards.
 * Returns GPOS_DONE, or refusal 1, 4 or 10. */
uint32_t gpos_to_clusters(const uint8_t *line, size_t line_len, uint8_t *target, size_t target_len);

/* Moves a line of 28-byte slots back to 24-byte ones. A cluster that is not its slot's number would
 * be lost, so it is refused with 10: to drop such clusters, copy the first 24 bytes of each slot.
 * Returns GPOS_DONE, or refusal 1, 4 or 10. */
uint32_t gpos_from_clusters(const uint8_t *line, size_t line_len, uint8_t *target,
                            size_t target_len);

/* ---- Helpers, compiled with your code and not part of what is proved */

/* A refusal in words, for a log; 0 is "done". */
static inline const char *gpos_refusal_text(uint32_t refusal) {
    switch (refusal) {
    case GPOS_DONE: return "done";
    case GPOS_REFUSED_LINE: return "the slot size or the line's length is wrong";
    case GPOS_REFUSED_DIRECTION: return "the direction is unknown";
    case GPOS_REFUSED_RANGE: return "em size, units per em or nesting limit is out of range";
    case GPOS_REFUSED_SLOT: return "a slot's numbers are out of range, or the slot size is wrong";
    case GPOS_REFUSED_INDEX: return "the index or the neighbour is out of place";
    case GPOS_REFUSED_SUBTABLE:
        return "the subtable is too long, cut, unknown or out of order, or the lookup type unknown";
    case GPOS_REFUSED_ENDLESS: return "what the mark goes on hangs on a ring of attachments";
    case GPOS_REFUSED_LIST: return "not 1 to 8 subtables, wrong lengths, or too short a list";
    case GPOS_REFUSED_MOVE: return "the target's length is wrong, or a cluster would be lost";
    default: return "no refusal of this library";
    }
}

/* How many bytes to pass of a subtable that begins at this offset of a GPOS table of gpos_len
 * bytes: what is left of the table, at most 65,536; 0 if the offset is outside. */
static inline size_t gpos_subtable_len(size_t gpos_len, size_t offset) {
    size_t left = offset < gpos_len ? gpos_len - offset : 0;
    return left < GPOS_MOST_SUBTABLE ? left : GPOS_MOST_SUBTABLE;
}

/* The address of slot i. A macro, so that a line that is const has slots that are. */
#define gpos_slot_at(line, slot_size, i) ((line) + (size_t)(slot_size) * (size_t)(i))

/* A slot's numbers, but for its cluster; see THE SLOT, above. */
typedef struct {
    uint16_t glyph;
    uint8_t ligature_id, component, flags, attach_type;
    int16_t chain;
    int32_t x_advance, y_advance, x_offset, y_offset;
} gpos_slot;

/* The big-endian number in so many bytes, at most four. */
static inline uint32_t gpos_get_number(const uint8_t *at, int bytes) {
    uint32_t n = 0;
    for (int k = 0; k < bytes; k++) n = n << 8 | at[k];
    return n;
}

/* Writes it. */
static inline void gpos_put_number(uint8_t *at, int bytes, uint32_t n) {
    for (int k = bytes; k > 0; n >>= 8) at[--k] = (uint8_t)(n & 255);
}

/* The slot at `at`, without its cluster: its first 24 bytes, which are alike in both sizes. */
static inline gpos_slot gpos_get_slot(const uint8_t *at) {
    gpos_slot slot;
    slot.glyph = (uint16_t)gpos_get_number(at, 2);
    slot.ligature_id = at[2];
    slot.component = at[3];
    slot.flags = at[4];
    slot.attach_type = at[5];
    slot.chain = (int16_t)gpos_get_number(at + 6, 2);
    slot.x_advance = (int32_t)gpos_get_number(at + 8, 4);
    slot.y_advance = (int32_t)gpos_get_number(at + 12, 4);
    slot.x_offset = (int32_t)gpos_get_number(at + 16, 4);
    slot.y_offset = (int32_t)gpos_get_number(at + 20, 4);
    return slot;
}

/* Writes a slot to the 24 bytes at `at`, and leaves the cluster after them, if there is one, as it
 * is. */
static inline void gpos_put_slot(uint8_t *at, gpos_slot slot) {
    gpos_put_number(at, 2, slot.glyph);
    at[2] = slot.ligature_id;
    at[3] = slot.component;
    at[4] = slot.flags;
    at[5] = slot.attach_type;
    gpos_put_number(at + 6, 2, (uint16_t)slot.chain);
    gpos_put_number(at + 8, 4, (uint32_t)slot.x_advance);
    gpos_put_number(at + 12, 4, (uint32_t)slot.y_advance);
    gpos_put_number(at + 16, 4, (uint32_t)slot.x_offset);
    gpos_put_number(at + 20, 4, (uint32_t)slot.y_offset);
}

/* The cluster of the slot at `at`, which has 28 bytes. */
static inline uint32_t gpos_get_cluster(const uint8_t *at) {
    return gpos_get_number(at + GPOS_PLAIN_SIZE, 4);
}

/* Writes the cluster of the slot at `at`, which has 28 bytes. */
static inline void gpos_put_cluster(uint8_t *at, uint32_t cluster) {
    gpos_put_number(at + GPOS_PLAIN_SIZE, 4, cluster);
}

#ifdef __cplusplus
}
#endif
#endif
