/* Basilurn: exact trade-off lists of pseudo-Boolean instances.
 *
 * Link with libbasilurn.a. All memory is lent by the caller as a pointer and a number of elements; nothing is allocated, kept or read after
 * a call returns. A run that is lent for writing may overlap no other run of the same call. A run of length 0 may have any pointer that is
 * not NULL and is aligned.
 *
 * Each function answers one 64-bit number: the refusal number in the upper 32 bits (0 = done), the answer number in the lower 32.
 * Every refusal has one cause, and leaves lent memory as its line says; what no line names is as found.
 *
 * Tables: `terms` has two numbers for a term, coefficient and literal (i for xi, -i for ~xi), and needs room for 8,192 numbers; `rows` has
 * four numbers for an entry, kind (0 unused, 1 objective, 2 >=, 3 <=, 4 =), first term's index, count of terms, bound, and needs room for
 * 1,040. Numbers beyond that room are never read or written.
 *
 * Lists: a point is four numbers of `values`, unused ones 0, and one number of `models`, its assignment (x_i adds 2^(i-1)). A list is proper
 * when objectives are 1 to 4, n is at most 64, points are at most 1,024 and within both runs, each value is within 4,096,000,000 of 0 and unused
 * ones are 0, no assignment has a bit from n up, the vectors strictly rise (compared at the first value, then the second, and so on), and none
 * is at most another in every place.
 *
 * Files: a head of 512 bytes, and 512 bytes for each 12 points, the last of them for what is left.
 */
#ifndef BASILURN_H
#define BASILURN_H

#include <stddef.h>
#include <stdint.h>

#ifdef __cplusplus
extern "C" {
#endif

#define BASILURN_TERM_ROOM 8192
#define BASILURN_ROW_ROOM 1040
#define BASILURN_MAX_TEXT 65535
#define BASILURN_MAX_WRITTEN 61724
#define BASILURN_POINT_VALUES 4
#define BASILURN_MAX_POINTS 1024
#define BASILURN_MAX_VALUE 4096000000
#define BASILURN_VALUE_ROOM (BASILURN_MAX_POINTS * BASILURN_POINT_VALUES)
#define BASILURN_BLOCK 512
#define BASILURN_BLOCK_POINTS 12
#define BASILURN_MAX_FILE 44544

/* The parts of an answer. */
static inline uint32_t basilurn_refusal(uint64_t answer) { return (uint32_t)(answer >> 32); }
static inline uint32_t basilurn_value(uint64_t answer) { return (uint32_t)answer; }

/* Reads instance text into both tables and answers n, the highest variable named.
 * Refuses 1 (a table is too short) and 2 (text longer than 65,535 bytes): all as found. Then, with the number of the statement, 3 (breaks the
 * grammar), 4 (`min:` after a row), 5 (fifth objective or 257th row), 6 (coefficient or bound out of range), 7 (variable 0 or above 64),
 * 8 (more than 4,096 terms); then 9 (no objective): the room of both tables is zero.
 * Done: the room holds the instance, zeros to its end. */
uint64_t basilurn_read_text(const uint8_t *text, size_t text_len, int32_t *terms, size_t terms_len, int64_t *rows, size_t rows_len);

/* Writes the instance that the tables hold as text and answers the number of bytes, at most 61,724.
 * Refuses 10 (the tables are not an instance), 13 (the output is shorter than the text): the output is as found. */
uint64_t basilurn_write_text(const int32_t *terms, size_t terms_len, const int64_t *rows, size_t rows_len, uint8_t *out, size_t out_len);

/* Judges one assignment (x_i adds 2^(i-1)): stores its vector, unused values 0, and answers the first row that it does not meet, counted from
 * 1, or 0 if it meets all.
 * Refuses 10 (the tables are not an instance), 12 (the assignment has a bit from n up): four values 0, answer 0. */
uint64_t basilurn_judge(const int32_t *terms, size_t terms_len, const int64_t *rows, size_t rows_len, uint64_t assignment, int64_t values[4]);

/* Lists the front of the instance that the tables hold: every best trade between the objectives, once, in rising order, first objective first,
 * each with the smallest-numbered assignment that has it. Answers the number of points. A point is four numbers of `values`, unused ones 0, and
 * one of `models`. The room R is the least of 1,024, a quarter of the length of `values` rounded down, and the length of `models`.
 * Refuses 10 (the tables are not an instance): both runs as found. Refuses 11 (the front has more than R points) with R: the first R points.
 * Done and 11: the points stand at the beginning of both runs, the rest of them as found. Uses about 300 KB of stack. */
uint64_t basilurn_list(const int32_t *terms, size_t terms_len, const int64_t *rows, size_t rows_len, int64_t *values, size_t values_len, uint64_t *models, size_t models_len);

/* Writes the first `points` points of both runs as a front file and answers the number of bytes, at most 44,544.
 * Refuses 14 (the list is not proper, also where objectives, n or points are out of range or a run is too short for the points),
 * 13 (the output is shorter than the file): the output is as found.
 * Done: the file stands at the beginning of the output, the rest of it as found. */
uint64_t basilurn_write_file(uint64_t objectives, uint64_t n, uint64_t points, const int64_t *values, size_t values_len, const uint64_t *models, size_t models_len, uint8_t *file, size_t file_len);

/* Reads a front file, answers the number of points, and stores objectives, n and points in `head`.
 * Refuses 15 (length 0, not a multiple of 512, or above 44,544); 16 (a check does not fit) and 17 (kind, number, form, block total or a zero
 * byte wrong), both with the lowest such block, counted from 0, and 17 with block 0 where the total is wrong; 14 (the list is not proper);
 * 13 (a run has no room for the points): both runs as found, three zeros in `head`.
 * Done: the points stand at the beginning of both runs, the rest of them as found. */
uint64_t basilurn_read_file(const uint8_t *file, size_t file_len, int64_t *values, size_t values_len, uint64_t *models, size_t models_len, uint64_t head[3]);

#ifdef __cplusplus
}
#endif

#endif
