/* A label from a real font: HarfBuzz makes the glyphs, this library positions them, and the result
   is compared with HarfBuzz's own. What the steps are, docs/GUIDE.md says; here font/label.c takes
   them. With the library installed it is built by: cc font.c font/label.c font/lookups.c
   font/shaper.c font/gdef.c font/verdict.c font/picture.c $(pkg-config --cflags --libs gpos
   harfbuzz) */
#include "font/picture.h"
#include "font/stop.h"
#include "font/verdict.h"

#include <ctype.h>
#include <string.h>

static const char use[] =
    "use: font FILE TEXT [--size N] [--svg FILE] [--language TAG] [--face N]\n"
    "                    [--unstarted OLD]\n"
    "Shapes TEXT, one run of one script, with the font in FILE (.ttf, .otf, .ttc): glyphs by\n"
    "HarfBuzz, positions by this library. Prints a row for each glyph, in reading order: slot,\n"
    "glyph, cluster (the byte in TEXT), the slot that it hangs on, advance and drawn place, and\n"
    "HarfBuzz's own, with ! where they differ, be it only by what lies to the left; then what was\n"
    "run and what not; and in the last line whether the two are the same or different, and why.\n"
    "  --size N         N units make one em, 1 to 32768; without it, those of the font\n"
    "  --svg FILE       writes the label as a picture: outlines where this library puts them (red\n"
    "                   where they hang on another), pen places with the slots there, a line from\n"
    "                   each glyph to what it hangs on; in grey, what HarfBuzz puts elsewhere\n"
    "  --language TAG   of the text, as BCP 47 has it: ur for Urdu, say\n"
    "  --face N         of a font collection, from 0\n"
    "  --unstarted OLD  doesn't start the line, in memory that had the label OLD, unfinished:\n"
    "                   what happens when old attachments aren't cleared\n"
    "  --               what follows is FILE or TEXT, also if it begins with --\n"
    "It is for scripts whose marks HarfBuzz treats as those of Arabic, Hebrew, Latin and Thai.\n"
    "Exit status: 0 the same, 1 different, 2 the label can't be made.\n";

typedef struct {
    const char *file, *svg, *old;
    text text;
    unsigned size, face;
} request;

/* ---- Arguments */

static unsigned number(const char *option, const char *word, unsigned least, unsigned most) {
    char *end;
    unsigned long n = strtoul(word, &end, 10);
    if (*word < '0' || *word > '9' || *end || n < least || n > most) {
        fprintf(stderr, "font: %s takes a number from %u to %u, not %s\n", option, least, most,
                word);
        exit(2);
    }
    return (unsigned)n;
}

static const char *language_tag(const char *word) {
    for (const char *c = word; *c; c++)
        if (!isalnum((unsigned char)*c) && *c != '-')
            stop("font", word, "no language tag; ur is one, or pt-BR");
    if (!isalpha((unsigned char)*word)) stop("font", "--language", "a tag like ur must follow it");
    return word;
}

static const char *const options[] = {"--size", "--svg", "--language", "--face", "--unstarted"};
enum { SIZE_OPTION, SVG, LANGUAGE, FACE, UNSTARTED, OPTIONS };

static int option_of(const char *word) {
    for (int k = 0; k < OPTIONS; k++)
        if (!strcmp(word, options[k])) return k;
    stop("font", word, "no such option; --help lists them");
}

static void take_option(request *r, int option, const char *word) {
    if (!word) stop("font", options[option], "a word must follow it");
    switch (option) {
    case SIZE_OPTION: r->size = number("--size", word, 1, 32768); break;
    case SVG: r->svg = word; break;
    case LANGUAGE: r->text.language = language_tag(word); break;
    case FACE: r->face = number("--face", word, 0, 65535); break;
    default: r->old = word;
    }
}

static request asked(int argc, char **argv) {
    request r = {0};
    bool plain = false; /* a word that begins with -- is no option any more */
    for (int k = 1; k < argc; k++) {
        if (!plain && !strcmp(argv[k], "--help")) {
            fputs(use, stdout);
            exit(0);
        }
        if (!plain && !strcmp(argv[k], "--"))
            plain = true;
        else if (!plain && !strncmp(argv[k], "--", 2)) {
            int option = option_of(argv[k]);
            take_option(&r, option, argv[++k]);
        } else if (!r.file)
            r.file = argv[k];
        else if (!r.text.utf8)
            r.text.utf8 = argv[k];
        else
            stop("font", argv[k], "FILE and TEXT are given already");
    }
    if (!r.text.utf8) {
        fputs(use, stderr);
        exit(2);
    }
    return r;
}

/* ---- The label */

static font opened;
static glyphs shaped, old_shaped;
static lookups chosen;
static label line;
static places ours, theirs;

static void shape_or_stop(const char *about, const text *t, glyphs *out) {
    const char *wrong = wrong_text(t);
    if (!wrong) wrong = shape(&opened, t, out);
    if (wrong) stop("font", about, wrong);
}

/* The older label, attached and not finished, is what the line's memory holds. */
static void leave_old(const request *r) {
    shape_or_stop("OLD", &(text){r->old, r->text.language}, &old_shaped);
    line.glyphs = &old_shaped;
    attach(&line);
    line.keeps_old = true;
}

static void make(const request *r) {
    const char *wrong = open_font(&opened, r->file, r->face);
    if (wrong) stop("font", r->file, wrong);
    shape_or_stop("TEXT", &r->text, &shaped);
    chosen = choose_lookups(&opened, &shaped.run);
    prepare_label(&line, &opened, &shaped, &chosen);
    if (r->size) line.em_size = r->size;
    if (r->old) leave_old(r);
    line.glyphs = &shaped;
    attach(&line);
    finish(&line, &ours);
}

/* ---- What is printed */

static int64_t pens[GPOS_MOST_SLOTS], their_pens[GPOS_MOST_SLOTS];

static void print_place(const place *p, int64_t pen) {
    printf("  %7ld %7ld %7ld", (long)p->x_advance, (long)(pen + p->x_offset), (long)p->y_offset);
}

static void print_row(size_t i) {
    char name[32], parent[12] = "-";
    hb_font_glyph_to_string(opened.hb, shaped.at[i].glyph, name, sizeof name);
    if (line.parent[i] != NO_PARENT) snprintf(parent, sizeof parent, "%d", line.parent[i]);
    printf("%4zu  %-24s %7u %8s", i, name, (unsigned)shaped.at[i].cluster, parent);
    print_place(&ours.at[i], pens[i]);
    print_place(&theirs.at[i], their_pens[i]);
    if (shaped.at[i].ignorable)
        fputs("  not shown", stdout);
    else if (!same_place(&shaped.at[i], &ours.at[i], &theirs.at[i]) || pens[i] != their_pens[i])
        fputs("  !", stdout);
    puts("");
}

static void print_rows(void) {
    char script[5] = {0};
    const char *language = hb_language_to_string(shaped.run.language);
    hb_tag_to_string(hb_script_to_iso15924_tag(shaped.run.script), script);
    printf("taken as: script %s, language %s, from %s\n", script[0] ? script : "unknown", language,
           shaped.right_to_left ? "right to left" : "left to right");
    printf("%4s  %-24s %7s %8s  %7s %7s %7s  %7s %7s %7s\n", "slot", "glyph", "cluster",
           "hangs on", "advance", "x", "y", "HB adv.", "x", "y");
    pen_places(&shaped, &ours, pens);
    pen_places(&shaped, &theirs, their_pens);
    for (size_t i = 0; i < ours.count; i++) print_row(i);
}

/* The lookups that are chosen, each with its feature, if they are so. */
static void print_lookups(const char *words, bool (*so)(const lookup *)) {
    const char *before = words;
    for (size_t k = 0; k < chosen.count; k++) {
        char tag[5] = {0};
        if (!so(&chosen.at[k])) continue;
        hb_tag_to_string(chosen.at[k].feature, tag);
        printf("%s %u (%s)", before, chosen.at[k].index, tag);
        before = ",";
    }
    if (before != words) puts("");
}

static hb_set_t *moved; /* the numbers of lookups by which HarfBuzz moved a glyph */

static bool is_run(const lookup *l) { return l->subtable_count; }
static bool is_missed(const lookup *l) { return is_contextual(l) && hb_set_has(moved, l->index); }
static bool is_idle(const lookup *l) { return is_contextual(l) && !is_missed(l); }
static bool is_unknown(const lookup *l) { return l->type < 1 || l->type > 8; }
static bool is_cut(const lookup *l) { return l->refused; }

static void print_all_lookups(void) {
    print_lookups("run: lookups", is_run);
    print_lookups("not run, contextual, and HarfBuzz moves glyphs by them: lookups", is_missed);
    print_lookups("not run, contextual, but nothing here moves by them: lookups", is_idle);
    print_lookups("not run, of unknown type: lookups", is_unknown);
    print_lookups("not run whole, since a subtable is refused with 6: lookups", is_cut);
    if (line.endless) puts("a run was stopped: the font hangs glyphs in a ring (refusal 7)");
    if (!chosen.as_harfbuzz) puts("HarfBuzz chooses other lookups");
}

/* How many advances and offsets differ, and by how much at most. */
static long differing(long *most) {
    long count = 0;
    *most = 0;
    for (size_t i = 0; i < ours.count; i++) {
        const place *a = &ours.at[i], *b = &theirs.at[i];
        long by[3] = {(long)a->x_advance - b->x_advance, (long)a->x_offset - b->x_offset,
                      (long)a->y_offset - b->y_offset};
        for (int k = 0; k < 3; k++) {
            count += by[k] != 0;
            if (labs(by[k]) > *most) *most = labs(by[k]);
        }
    }
    return count;
}

/* A number is a sum over lookups and, of a mark, over glyphs: as many parts, each rounded by both,
   by HarfBuzz after a multiplication that is off by up to half a unit. */
static bool is_rounding(long most) { return most <= 2 * (long)(ours.count + chosen.count); }

/* The exit status. */
static int print_verdict(const request *r, unsigned reasons) {
    bool same = alike(&shaped, &ours, &theirs);
    long most, count = differing(&most);
    if (r->old) {
        puts(same ? "same, though the line was not started"
                  : "different: the line was not started");
        return !same;
    }
    if (!reasons && !same && !is_rounding(most)) {
        printf("different at this size, by %ld and so not by rounding\n", most);
        return 1;
    }
    if (reasons && same) fputs("same at this size; in units of the font ", stdout);
    if (reasons)
        print_reasons(stdout, reasons);
    else if (same)
        puts("same");
    else
        printf("same in units of the font; at this size HarfBuzz rounds otherwise: %ld numbers, by "
               "at most %ld\n",
               count, most);
    return reasons != 0;
}

static void write_svg(const request *r) {
    FILE *out = fopen(r->svg, "w");
    if (!out) stop("font", r->svg, "it can't be written");
    bool written = draw_picture(out, &opened, &r->text, &line, &ours, &theirs);
    if (fclose(out) || !written) stop("font", r->svg, "it can't be written");
}

int main(int argc, char **argv) {
    request r = asked(argc, argv);
    moved = hb_set_create();
    make(&r);
    unsigned reasons = judge(&line, &opened, &r.text, moved).reasons;
    position_by_harfbuzz(&opened, &r.text, (int)line.em_size, (left_out){0}, &theirs, NULL);
    if (ours.count != theirs.count)
        stop("font", "TEXT", "in the end HarfBuzz has more glyphs, or fewer");
    print_rows();
    print_all_lookups();
    int status = print_verdict(&r, reasons);
    if (fflush(stdout)) stop("font", "standard output", "it can't be written");
    if (r.svg) write_svg(&r);
    hb_set_destroy(moved);
    free_lookups(&chosen);
    close_font(&opened);
    return status;
}
