/* Times the listing of the library and of the yardstick (search.c) in turn on the same tables, and sees that both answer alike.
 *
 *   timing [-o FOLDER] FILE...
 *
 * Each is run until its runs took 0.2 s or there were 3, at most 200, and its least time is taken. Prints a line for each file, tabs between:
 * name, n, objectives, rows, points, refusal (0, or 11 where the front has more than 1,024 points), nodes of the yardstick's search, seconds of
 * the library, seconds of the yardstick. With -o, writes each listing to FOLDER/NAME.out. Answers 1 where the two differ. */
#include "basilurn.h"
#include <inttypes.h>
#include <stdio.h>
#include <stdlib.h>
#include <string.h>
#include <time.h>

extern uint64_t yardstick_list(const int32_t *terms, size_t terms_len, const int64_t *rows, size_t rows_len, int64_t *values, size_t values_len, uint64_t *models, size_t models_len);
extern uint64_t yardstick_nodes;

typedef uint64_t lister(const int32_t *, size_t, const int64_t *, size_t, int64_t *, size_t, uint64_t *, size_t);

struct side {
    lister *list;
    uint64_t answer;
    double least;
    int64_t values[BASILURN_VALUE_ROOM];
    uint64_t models[BASILURN_MAX_POINTS];
};

static uint8_t text[BASILURN_MAX_TEXT + 1];
static int32_t terms[BASILURN_TERM_ROOM];
static int64_t rows[BASILURN_ROW_ROOM];
static struct side library = {.list = basilurn_list}, yardstick = {.list = yardstick_list};

static void fail(const char *file, const char *what) {
    fprintf(stderr, "timing: %s: %s\n", file, what);
    exit(1);
}

static double now(void) {
    struct timespec t;
    clock_gettime(CLOCK_MONOTONIC, &t);
    return (double)t.tv_sec + (double)t.tv_nsec * 1e-9;
}

/* Reads the file into both tables and answers n. */
static uint32_t read_instance(const char *file) {
    FILE *in = fopen(file, "rb");
    if (in == NULL) fail(file, "cannot be read");
    size_t len = fread(text, 1, sizeof text, in);
    fclose(in);
    uint64_t a = basilurn_read_text(text, len, terms, BASILURN_TERM_ROOM, rows, BASILURN_ROW_ROOM);
    if (basilurn_refusal(a) != 0) fail(file, "is refused");
    return basilurn_value(a);
}

/* One run; answers its seconds. Both runs of memory are cleared first, so that nothing is left of another run. */
static double run_once(struct side *s) {
    memset(s->values, 0, sizeof s->values);
    memset(s->models, 0, sizeof s->models);
    double begin = now();
    s->answer = s->list(terms, BASILURN_TERM_ROOM, rows, BASILURN_ROW_ROOM, s->values, BASILURN_VALUE_ROOM, s->models, BASILURN_MAX_POINTS);
    double took = now() - begin;
    if (took < s->least) s->least = took;
    return took;
}

/* Both in turn, so that both see the machine in the same state. */
static void run_both(void) {
    double spent = 0;
    library.least = yardstick.least = 1e9;
    for (int i = 0; i < 200 && (i < 3 || spent < 0.4); i++) spent += run_once(&library) + run_once(&yardstick);
}

static int alike(void) {
    return library.answer == yardstick.answer && memcmp(library.values, yardstick.values, sizeof library.values) == 0
        && memcmp(library.models, yardstick.models, sizeof library.models) == 0;
}

/* How many entries there are of the kinds from `low` to `high`. */
static int count_entries(int64_t low, int64_t high) {
    int count = 0;
    for (int k = 0; k < BASILURN_ROW_ROOM / 4; k++) count += rows[4 * k] >= low && rows[4 * k] <= high;
    return count;
}

/* The listing, as the program `basilurn` prints it. */
static void write_listing(const char *folder, const char *name, uint32_t n, int objectives) {
    char path[4096];
    uint32_t points = basilurn_value(library.answer);
    snprintf(path, sizeof path, "%s/%s.out", folder, name);
    FILE *out = fopen(path, "w");
    if (out == NULL) fail(path, "cannot be written");
    fprintf(out, "front %" PRIu32 " objectives %d variables %" PRIu32 "%s\n", points, objectives, n, basilurn_refusal(library.answer) ? " cut" : "");
    for (uint32_t p = 0; p < points; p++) {
        fprintf(out, "point %" PRIu32 " values", p + 1);
        for (int k = 0; k < objectives; k++) fprintf(out, " %" PRId64, library.values[4 * p + k]);
        fprintf(out, " model %" PRIu64 "\n", library.models[p]);
    }
    if (fclose(out) != 0) fail(path, "cannot be written");
}

/* The file's name without folders and without `.opb`. */
static void plain_name(const char *file, char *name, size_t room) {
    const char *slash = strrchr(file, '/');
    snprintf(name, room, "%s", slash == NULL ? file : slash + 1);
    char *dot = strrchr(name, '.');
    if (dot != NULL && strcmp(dot, ".opb") == 0) *dot = 0;
}

static void time_file(const char *file, const char *folder) {
    char name[256];
    plain_name(file, name, sizeof name);
    uint32_t n = read_instance(file);
    run_both();
    if (!alike()) fail(file, "the library and the yardstick differ");
    int objectives = count_entries(1, 1);
    if (folder != NULL) write_listing(folder, name, n, objectives);
    printf("%s\t%" PRIu32 "\t%d\t%d\t%" PRIu32 "\t%" PRIu32 "\t%" PRIu64 "\t%.9f\t%.9f\n", name, n, objectives, count_entries(2, 4),
           basilurn_value(library.answer), basilurn_refusal(library.answer), yardstick_nodes, library.least, yardstick.least);
    fflush(stdout);
}

int main(int argc, char **argv) {
    int first = argc > 2 && strcmp(argv[1], "-o") == 0 ? 3 : 1;
    for (int i = first; i < argc; i++) time_file(argv[i], first == 3 ? argv[2] : NULL);
    return 0;
}
