/* Lists the front of an instance through the library.
 *
 *   list [TEXT [FRONT]]
 *
 * Reads instance text from the file TEXT, or from standard input where there is no argument or it is `-`; lists the front; judges each witness
 * and sees that its values are those of the list; writes the front as a front file, into the file FRONT too where it is named, and reads it back.
 * Prints the listing, or the line of a refusal. A message on standard error says what a refusal means. Answers 0 where a listing was printed. */
#include "basilurn.h"
#include <inttypes.h>
#include <stdio.h>
#include <stdlib.h>
#include <string.h>

/* One byte more than the longest text, so that a longer one is seen to be too long. */
static uint8_t text[BASILURN_MAX_TEXT + 1];
static int32_t terms[BASILURN_TERM_ROOM];
static int64_t rows[BASILURN_ROW_ROOM];
static int64_t values[BASILURN_VALUE_ROOM], values_back[BASILURN_VALUE_ROOM];
static uint64_t models[BASILURN_MAX_POINTS], models_back[BASILURN_MAX_POINTS];
static uint8_t file[BASILURN_MAX_FILE];

static const char *cause(uint32_t refusal) {
    switch (refusal) {
    case 1: return "a lent table is too short for reading text";
    case 2: return "the text is longer than 65,535 bytes";
    case 3: return "a statement breaks the grammar";
    case 4: return "`min:` after a row";
    case 5: return "a fifth objective or a 257th row";
    case 6: return "a coefficient or a bound is out of range";
    case 7: return "a variable is x0 or above x64";
    case 8: return "more than 4,096 terms";
    case 9: return "no objective";
    case 10: return "the tables are not an instance";
    case 11: return "the front is larger than the room for points";
    case 12: return "the assignment has a bit from n up";
    case 13: return "the output is too short";
    case 14: return "the list is not proper";
    case 15: return "the file's length is 0, no multiple of 512, or above 44,544";
    case 16: return "a block's check does not fit";
    case 17: return "a block's kind, number, form, total or a zero byte is wrong";
    default: return "no such refusal";
    }
}

/* Ends the program where what was promised is not so. */
static void demand(int fine, const char *what) {
    if (fine) return;
    fprintf(stderr, "list: %s\n", what);
    exit(2);
}

static size_t read_input(const char *name) {
    FILE *in = name == NULL || strcmp(name, "-") == 0 ? stdin : fopen(name, "rb");
    size_t len = 0;
    if (in != NULL) len = fread(text, 1, sizeof text, in);
    if (in == NULL || ferror(in)) {
        perror(name == NULL ? "list: standard input" : name);
        exit(2);
    }
    return len;
}

/* Objectives come first in the table of rows: kind 1. */
static uint64_t count_objectives(void) {
    uint64_t k = 0;
    while (k < 4 && rows[k * 4] == 1) k++;
    return k;
}

/* Each witness meets all rows and has the values that are listed. */
static void judge_points(uint64_t points) {
    for (uint64_t k = 0; k < points; k++) {
        int64_t four[4];
        uint64_t a = basilurn_judge(terms, BASILURN_TERM_ROOM, rows, BASILURN_ROW_ROOM, models[k], four);
        demand(a == 0, "a witness does not meet all rows");
        demand(memcmp(four, values + k * 4, sizeof four) == 0, "a witness has other values than the list");
    }
}

/* The front as a file, and back. */
static void file_points(uint64_t objectives, uint64_t n, uint64_t points, const char *name) {
    uint64_t head[3];
    uint64_t a = basilurn_write_file(objectives, n, points, values, BASILURN_VALUE_ROOM, models, BASILURN_MAX_POINTS, file, sizeof file);
    demand(basilurn_refusal(a) == 0, cause(basilurn_refusal(a)));
    size_t len = basilurn_value(a);
    a = basilurn_read_file(file, len, values_back, BASILURN_VALUE_ROOM, models_back, BASILURN_MAX_POINTS, head);
    demand(basilurn_refusal(a) == 0, cause(basilurn_refusal(a)));
    demand(head[0] == objectives && head[1] == n && head[2] == points, "the file came back with another head");
    demand(memcmp(values, values_back, sizeof(int64_t) * 4 * points) == 0, "the file came back with other values");
    demand(memcmp(models, models_back, sizeof(uint64_t) * points) == 0, "the file came back with other witnesses");
    if (name == NULL) return;
    FILE *out = fopen(name, "wb");
    if (out == NULL || fwrite(file, 1, len, out) != len || fclose(out) != 0) {
        perror(name);
        exit(2);
    }
}

static void print_listing(uint64_t objectives, uint64_t n, uint64_t points, int cut) {
    printf("front %" PRIu64 " objectives %" PRIu64 " variables %" PRIu64 "%s\n", points, objectives, n, cut ? " cut" : "");
    for (uint64_t k = 0; k < points; k++) {
        printf("point %" PRIu64 " values", k + 1);
        for (uint64_t j = 0; j < objectives; j++) printf(" %" PRId64, values[k * 4 + j]);
        printf(" model %" PRIu64 "\n", models[k]);
    }
}

int main(int argc, char **argv) {
    size_t len = read_input(argc > 1 ? argv[1] : NULL);
    uint64_t a = basilurn_read_text(text, len, terms, BASILURN_TERM_ROOM, rows, BASILURN_ROW_ROOM);
    if (basilurn_refusal(a) != 0) {
        printf("refused %" PRIu32 " statement %" PRIu32 "\n", basilurn_refusal(a), basilurn_value(a));
        fprintf(stderr, "list: %s\n", cause(basilurn_refusal(a)));
        return 1;
    }
    uint64_t n = basilurn_value(a);
    uint64_t objectives = count_objectives();

    a = basilurn_list(terms, BASILURN_TERM_ROOM, rows, BASILURN_ROW_ROOM, values, BASILURN_VALUE_ROOM, models, BASILURN_MAX_POINTS);
    int cut = basilurn_refusal(a) == 11;
    demand(basilurn_refusal(a) == 0 || cut, cause(basilurn_refusal(a)));
    uint64_t points = basilurn_value(a);
    if (cut) fprintf(stderr, "list: %s: these are its first points\n", cause(11));

    judge_points(points);
    file_points(objectives, n, points, argc > 2 ? argv[2] : NULL);
    print_listing(objectives, n, points, cut);
    return 0;
}
