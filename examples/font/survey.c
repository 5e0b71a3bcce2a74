/* Every label in every font: how many are the same as HarfBuzz's, and why others differ. */
#include "stop.h"
#include "verdict.h"

#include <string.h>

static const char use[] =
    "use: survey [--each] [--hard FILE] NAMES <LIST\n"
    "NAMES has a label a line: language, TAB, text; '#' begins a comment. LIST has a font a line:\n"
    "the name of its row, TAB, its file. Prints a table with a row for each name in LIST, and one\n"
    "with a row for each script. FILE has labels that are counted in the second table alone.\n"
    "--each names each label that differs, and why, on standard error, and each font that can't\n"
    "be tried; labels that differ without a known reason are named always. Exit status: 1 if\n"
    "there are such, 2 if something can't be read or, with --each, a font can't be tried.\n";

/* ---- Labels */

enum { MOST_LABELS = 2000, MOST_ROWS = 500, MOST_BYTES = 4096 };
enum { ARABIC, URDU, THAI, LATIN, HARD, SCRIPTS };
static const char *const script_names[SCRIPTS] = {"Arabic", "Urdu", "Thai", "Latin", "made up"};

static struct {
    char *language, *text;
    int script;
} labels[MOST_LABELS];
static size_t label_count;
static unsigned count_of[SCRIPTS]; /* labels of each script */

static char *kept(const char *word) {
    char *copy = malloc(strlen(word) + 1);
    if (!copy) stop("survey", word, "out of memory");
    return strcpy(copy, word);
}

static int script_of(const char *language) {
    if (!strcmp(language, "ar")) return ARABIC;
    if (!strcmp(language, "ur")) return URDU;
    return strcmp(language, "th") ? LATIN : THAI;
}

/* Cuts a line at its TAB; NULL where it has none. */
static char *cut(char *line) {
    char *tab = strchr(line, '\t');
    line[strcspn(line, "\r\n")] = 0;
    if (tab) *tab++ = 0;
    return tab;
}

static void read_labels(const char *file, bool hard) {
    char line[MOST_BYTES];
    FILE *in = fopen(file, "r");
    if (!in) stop("survey", file, "it can't be read");
    while (fgets(line, sizeof line, in)) {
        char *words = cut(line);
        if (line[0] == '#' || !line[0]) continue;
        if (!words) stop("survey", file, "a line has not a language, a TAB and a text");
        if (label_count == MOST_LABELS) stop("survey", file, "it has more than 2,000 labels");
        const char *wrong = wrong_text(&(text){words, line});
        if (wrong) stop("survey", words, wrong);
        labels[label_count].language = kept(line);
        labels[label_count].text = kept(words);
        labels[label_count].script = hard ? HARD : script_of(line);
        count_of[labels[label_count++].script]++;
    }
    fclose(in);
}

/* ---- Counting */

typedef struct {
    char *name;
    unsigned fonts, used;      /* with GPOS; and of these with glyphs for some label */
    unsigned labels, moved;    /* that were tried; with a glyph that GPOS or a kern table moves */
    unsigned same, moved_same; /* as many of both as are the same */
    unsigned by[REASONS], unexplained;
    unsigned marks_elsewhere; /* different, with a mark in another place on its letter */
} tally;

static tally rows[MOST_ROWS], scripts[SCRIPTS];
static size_t row_count;
static bool each;

static tally *row_of(const char *name) {
    if (row_count && !strcmp(rows[row_count - 1].name, name)) return &rows[row_count - 1];
    if (row_count == MOST_ROWS) stop("survey", name, "there are more than 500 rows");
    rows[row_count].name = kept(name);
    return &rows[row_count++];
}

static void count(tally *t, verdict v, bool moved) {
    t->labels++;
    t->moved += moved;
    t->same += !v.reasons;
    t->moved_same += !v.reasons && moved;
    t->unexplained += v.reasons == UNEXPLAINED;
    t->marks_elsewhere += v.reasons && v.marks_elsewhere;
    for (int k = 0; k < REASONS; k++) t->by[k] += v.reasons >> k & 1;
}

static void name_label(const char *file, size_t k, unsigned reasons) {
    fprintf(stderr, "%s: %s (%s%s): ", file, labels[k].text, labels[k].language,
            labels[k].script == HARD ? ", made up" : "");
    print_reasons(stderr, reasons);
}

/* ---- One font */

static glyphs shaped;
static label line;

/* A label that can't be made, but for want of glyphs, is as bad as one that differs. */
static bool can_try(const font *f, const char *file, const text *t, size_t k) {
    const char *wrong = shape(f, t, &shaped);
    if (!wrong || shaped.lacking) return !wrong;
    fprintf(stderr, "%s: %s: %s\n", file, t->utf8, wrong);
    scripts[labels[k].script].unexplained++;
    return false;
}

static void try_label(const font *f, const char *file, const text *t, size_t k, tally *row) {
    hb_set_t *moved = hb_set_create();
    verdict v = judge(&line, f, t, moved);
    bool moves = !hb_set_is_empty(moved);
    hb_set_destroy(moved);
    if (labels[k].script != HARD) count(row, v, moves);
    count(&scripts[labels[k].script], v, moves);
    if (v.reasons == UNEXPLAINED || (each && v.reasons)) name_label(file, k, v.reasons);
}

/* Lookups are chosen anew where the label before had another script, language or direction. Returns
   how many labels were tried. */
static unsigned try_labels(const font *f, const char *file, tally *row) {
    hb_segment_properties_t run = HB_SEGMENT_PROPERTIES_DEFAULT;
    lookups chosen = {0};
    unsigned count_tried = 0;
    for (size_t k = 0; k < label_count; k++) {
        text t = {labels[k].text, labels[k].language};
        if (!can_try(f, file, &t, k)) continue;
        if (!count_tried++ || !hb_segment_properties_equal(&run, &shaped.run)) {
            free_lookups(&chosen);
            chosen = choose_lookups(f, &shaped.run);
            run = shaped.run;
        }
        prepare_label(&line, f, &shaped, &chosen);
        try_label(f, file, &t, k, row);
    }
    free_lookups(&chosen);
    return count_tried;
}

/* False where a face of it can't be tried, or has glyphs for no label. */
static bool try_font(const char *name, const char *file) {
    tally *row = row_of(name);
    bool good = true;
    for (unsigned k = 0, faces = 1; k < faces; k++) {
        font f;
        const char *wrong = open_font(&f, file, k);
        if (!f.face) stop("survey", file, wrong);
        row->fonts += !wrong;
        if (!wrong && !try_labels(&f, file, row)) wrong = "it has the glyphs of no label";
        row->used += !wrong;
        if (wrong && each) fprintf(stderr, "%s: %s\n", file, wrong);
        good &= !wrong;
        faces = f.faces;
        close_font(&f);
    }
    return good;
}

/* ---- The tables */

/* With how many labels there were for the fonts that were used. */
static void print_tally(const tally *t, unsigned most) {
    printf(" %u | %u | %u | %u | %u", most - t->labels, t->labels, t->same, t->moved,
           t->moved_same);
    for (int k = 0; k < REASONS; k++) printf(" | %u", t->by[k]);
    printf(" | %u | %u |\n", t->unexplained, t->marks_elsewhere);
}

static void print_head(const char *first, const char *dashes) {
    printf("| %s | no glyphs | labels | same | moved | same | contextual | kern table | hidden | "
           "moved after | refused | unexplained | marks elsewhere |\n"
           "|%s---|---|---|---|---|---|---|---|---|---|---|---|\n",
           first, dashes);
}

static void print_tables(void) {
    unsigned used = 0, names = (unsigned)label_count - count_of[HARD];
    print_head("fonts of | with GPOS | used", "---|---|---|");
    for (size_t k = 0; k < row_count; k++) {
        printf("| %s | %u | %u |", rows[k].name, rows[k].fonts, rows[k].used);
        print_tally(&rows[k], rows[k].used * names);
        used += rows[k].used;
    }
    puts("");
    print_head("script", "---|");
    for (int k = 0; k < SCRIPTS; k++) {
        printf("| %s |", script_names[k]);
        print_tally(&scripts[k], used * count_of[k]);
    }
}

static const char *take_words(int argc, char **argv, const char **hard) {
    const char *names = NULL;
    for (int k = 1; k < argc; k++) {
        if (!strcmp(argv[k], "--each"))
            each = true;
        else if (!strcmp(argv[k], "--hard") && k + 1 < argc)
            *hard = argv[++k];
        else
            names = argv[k];
    }
    if (names && names[0] != '-') return names;
    fputs(use, stderr);
    exit(2);
}

int main(int argc, char **argv) {
    char entry[MOST_BYTES];
    const char *hard = NULL, *names = take_words(argc, argv, &hard);
    bool good = true;
    unsigned unexplained = 0;
    read_labels(names, false);
    if (hard) read_labels(hard, true);
    while (fgets(entry, sizeof entry, stdin)) {
        char *file = cut(entry);
        if (!file) stop("survey", entry, "the list has not a name, a TAB and a file");
        good &= try_font(entry, file);
    }
    print_tables();
    for (int k = 0; k < SCRIPTS; k++) unexplained += scripts[k].unexplained;
    return unexplained ? 1 : each && !good ? 2 : 0;
}
