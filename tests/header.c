/* Calls every function through include/basilurn.h, on the instance T of the README and its list. Answers 0 where all is as it should be. */
#include "basilurn.h"
#include <stdio.h>
#include <stdlib.h>
#include <string.h>

static const char T[] = "min: +3 x1 +1 x2 +2 x3 ;\nmin: +1 x1 +4 x2 +2 x3 ;\n+1 x1 +1 x2 >= 1 ;\n+1 x2 +1 x3 >= 1 ;\n";

static int32_t terms[BASILURN_TERM_ROOM];
static int64_t rows[BASILURN_ROW_ROOM];
static uint8_t text[BASILURN_MAX_WRITTEN];
static uint8_t file[BASILURN_MAX_FILE];
static int64_t values_read[BASILURN_VALUE_ROOM];
static uint64_t models_read[BASILURN_MAX_POINTS];

static void expect(const char *what, uint64_t answer, uint32_t refusal, uint32_t value, int fine) {
    if (basilurn_refusal(answer) == refusal && basilurn_value(answer) == value && fine) return;
    fprintf(stderr, "%s: refusal %u value %u\n", what, (unsigned)basilurn_refusal(answer), (unsigned)basilurn_value(answer));
    exit(1);
}

int main(void) {
    const size_t len = strlen(T);
    const int64_t values[] = {1, 4, 0, 0, 5, 3, 0, 0};
    const uint64_t models[] = {2, 5};
    const uint8_t checks[] = {0xFF, 0xF6, 0xFF, 0xE8};
    int64_t vector[4];
    uint64_t head[3];
    uint64_t a;

    a = basilurn_read_text((const uint8_t *)T, len, terms, BASILURN_TERM_ROOM, rows, BASILURN_ROW_ROOM);
    expect("reading T", a, 0, 3, 1);
    a = basilurn_write_text(terms, BASILURN_TERM_ROOM, rows, BASILURN_ROW_ROOM, text, sizeof text);
    expect("writing T", a, 0, (uint32_t)len, memcmp(text, T, len) == 0);
    a = basilurn_judge(terms, BASILURN_TERM_ROOM, rows, BASILURN_ROW_ROOM, 5, vector);
    expect("judging x1 and x3", a, 0, 0, memcmp(vector, values + 4, sizeof vector) == 0);
    a = basilurn_list(terms, BASILURN_TERM_ROOM, rows, BASILURN_ROW_ROOM, values_read, BASILURN_VALUE_ROOM, models_read, BASILURN_MAX_POINTS);
    expect("the front of T", a, 0, 2, memcmp(values_read, values, sizeof values) == 0 && memcmp(models_read, models, sizeof models) == 0);
    a = basilurn_list(terms, BASILURN_TERM_ROOM, rows, BASILURN_ROW_ROOM, values_read, 4, models_read, BASILURN_MAX_POINTS);
    expect("the front of T with room for one point", a, 11, 1, 1);
    a = basilurn_write_file(2, 3, 2, values, 8, models, 2, file, sizeof file);
    expect("the file of T", a, 0, 2 * BASILURN_BLOCK, memcmp(file, checks, 2) == 0 && memcmp(file + BASILURN_BLOCK, checks + 2, 2) == 0);
    a = basilurn_read_file(file, 2 * BASILURN_BLOCK, values_read, BASILURN_VALUE_ROOM, models_read, BASILURN_MAX_POINTS, head);
    expect("reading it", a, 0, 2, head[0] == 2 && head[1] == 3 && head[2] == 2 && memcmp(values_read, values, sizeof values) == 0 && memcmp(models_read, models, sizeof models) == 0);
    file[BASILURN_BLOCK + 9] ^= 1;
    a = basilurn_read_file(file, 2 * BASILURN_BLOCK, values_read, BASILURN_VALUE_ROOM, models_read, BASILURN_MAX_POINTS, head);
    expect("reading it damaged", a, 16, 1, head[0] + head[1] + head[2] == 0);
    puts("header: each function through include/basilurn.h");
    return 0;
}
