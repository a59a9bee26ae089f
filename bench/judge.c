/* Judging one assignment, straightforward C: the yardstick for the library's judging. The same work: whether the tables are an instance, then
 * the sums and the first unmet row. */
#include <stdint.h>
#include <stddef.h>

static int64_t row_sum(const int32_t *terms, int64_t first, int64_t count, uint64_t a) {
    int64_t s = 0;
    for (int64_t k = first; k < first + count; k++) {
        int32_t lit = terms[2 * k + 1];
        uint64_t bit = lit > 0 ? (a >> (lit - 1)) & 1 : !((a >> (-lit - 1)) & 1);
        if (bit) s += terms[2 * k];
    }
    return s;
}

uint64_t yardstick_judge(const int32_t *terms, size_t tn, const int64_t *rows, size_t rn, uint64_t a, int64_t *values) {
    int64_t total = 0, entries = 0, objectives = 0, n = 0;
    for (int i = 0; i < 4; i++) values[i] = 0;
    if (tn < 8192 || rn < 1040) return 10ull << 32;
    while (objectives < 260 && rows[4 * objectives] == 1) objectives++;
    entries = objectives;
    while (entries < 260 && rows[4 * entries] >= 2 && rows[4 * entries] <= 4) entries++;
    if (objectives < 1 || objectives > 4 || entries - objectives > 256) return 10ull << 32;
    for (int64_t k = 0; k < entries; k++) {
        const int64_t *r = rows + 4 * k;
        if (r[1] != total || r[2] < 0 || r[2] > 4096 - total || r[3] < -4096000000 || r[3] > 4096000000) return 10ull << 32;
        if (k < objectives && r[3] != 0) return 10ull << 32;
        total += r[2];
    }
    for (int64_t i = 4 * entries; i < 1040; i++) if (rows[i]) return 10ull << 32;
    for (int64_t k = 0; k < total; k++) {
        int64_t c = terms[2 * k], l = terms[2 * k + 1];
        if (l < 0) l = -l;
        if (c < -1000000 || c > 1000000 || l < 1 || l > 64) return 10ull << 32;
        if (l > n) n = l;
    }
    for (int64_t i = 2 * total; i < 8192; i++) if (terms[i]) return 10ull << 32;
    if (n < 64 && a >> n) return 12ull << 32;
    for (int64_t k = 0; k < objectives; k++) values[k] = row_sum(terms, rows[4 * k + 1], rows[4 * k + 2], a);
    for (int64_t k = objectives; k < entries; k++) {
        const int64_t *r = rows + 4 * k;
        int64_t s = row_sum(terms, r[1], r[2], a);
        if ((r[0] == 2 && s < r[3]) || (r[0] == 3 && s > r[3]) || (r[0] == 4 && s != r[3])) return k - objectives + 1;
    }
    return 0;
}
