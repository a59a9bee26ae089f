/* GLPK's mixed integer solver on one instance: glpk [LIMIT FILE], as opb.py says. Only solving is timed.
 *
 * Two costs: the least f1, then the least f2 with that f1, then f2 must be lower than that, and so on. One, three or four costs: the least sum of
 * the costs; then for each point p found, one of the costs must be below p's. A binary y_i says which: f_i + (most_i - p_i + 1) y_i <= most_i,
 * where most_i is the greatest value of f_i, and the y_i of a point sum to 1 or more. Each optimum is a point of the front, as what is open below a
 * vector stays open.
 *
 * Tolerances are set so that a binary's error, times the greatest coefficient here, is far below 1. Each assignment is rounded, and the library
 * judges it. */
#include "basilurn.h"
#include <glpk.h>
#include <inttypes.h>
#include <stdio.h>
#include <stdlib.h>
#include <time.h>

static uint8_t text[BASILURN_MAX_TEXT + 1];
static int32_t terms[BASILURN_TERM_ROOM];
static int64_t rows[BASILURN_ROW_ROOM];
static int64_t values[BASILURN_MAX_POINTS * 16][4];
static int64_t most[4], constant[4];
static double weight[4][65];
static int n, objectives, points, calls;
static double limit, seconds;
static glp_prob *problem;

static void fail(const char *what) {
    fprintf(stderr, "glpk: %s\n", what);
    exit(1);
}

static double now(void) {
    struct timespec t;
    clock_gettime(CLOCK_MONOTONIC, &t);
    return (double)t.tv_sec + (double)t.tv_nsec * 1e-9;
}

static void read_instance(const char *file) {
    FILE *in = fopen(file, "rb");
    if (in == NULL) fail("the file cannot be read");
    size_t len = fread(text, 1, sizeof text, in);
    fclose(in);
    uint64_t a = basilurn_read_text(text, len, terms, BASILURN_TERM_ROOM, rows, BASILURN_ROW_ROOM);
    if (basilurn_refusal(a) != 0) fail("the text is refused");
    n = (int)basilurn_value(a);
    while (objectives < 4 && rows[4 * objectives] == 1) objectives++;
}

/* Adds up an entry's coefficients for each variable, negated literals folded away; answers the constant. */
static int64_t fold(const int64_t *entry, double *sums) {
    int64_t fixed = 0;
    for (int v = 0; v <= n; v++) sums[v] = 0;
    for (int64_t t = entry[1]; t < entry[1] + entry[2]; t++) {
        int32_t c = terms[2 * t], literal = terms[2 * t + 1];
        if (literal < 0) fixed += c;
        sums[abs(literal)] += literal > 0 ? c : -c;
    }
    return fixed;
}

/* Adds a row of the coefficients sums[1..n] and, where y is not 0, of `of_y` for the column y; answers the row's number. */
static int add_row(const double *sums, int y, double of_y, int kind, double low, double high) {
    int places[66], count = 0, r = glp_add_rows(problem, 1);
    double factors[66];
    for (int v = 1; v <= n; v++)
        if (sums[v] != 0) places[++count] = v, factors[count] = sums[v];
    if (y) places[++count] = y, factors[count] = of_y;
    glp_set_mat_row(problem, r, count, places, factors);
    glp_set_row_bnds(problem, r, kind, low, high);
    return r;
}

static int add_binaries(int count) {
    int first = glp_add_cols(problem, count);
    for (int j = first; j < first + count; j++) glp_set_col_kind(problem, j, GLP_BV);
    return first;
}

static void build(void) {
    double sums[65];
    problem = glp_create_prob();
    glp_set_obj_dir(problem, GLP_MIN);
    add_binaries(n);
    for (int k = 0; k < objectives; k++) {
        constant[k] = most[k] = fold(rows + 4 * k, weight[k]);
        for (int v = 1; v <= n; v++)
            if (weight[k][v] > 0) most[k] += (int64_t)weight[k][v];
    }
    for (const int64_t *entry = rows + 4 * objectives; entry < rows + BASILURN_ROW_ROOM && entry[0] != 0; entry += 4) {
        double bound = (double)(entry[3] - fold(entry, sums));
        add_row(sums, 0, 0, entry[0] == 2 ? GLP_LO : entry[0] == 3 ? GLP_UP : GLP_FX, bound, bound);
    }
}

/* Runs the solver. With two costs it goes on from the last basis, which is faster there; with more, presolving is. Answers as glp_intopt. */
static int run_solver(void) {
    glp_iocp options;
    glp_smcp relaxed;
    glp_init_iocp(&options);
    options.msg_lev = GLP_MSG_OFF;
    options.presolve = objectives == 2 ? GLP_OFF : GLP_ON;
    options.tol_int = 1e-7;
    options.tm_lim = (int)(1000 * (limit - seconds)) + 1;
    if (objectives != 2) return glp_intopt(problem, &options);
    glp_init_smcp(&relaxed);
    relaxed.msg_lev = GLP_MSG_OFF;
    relaxed.meth = GLP_DUALP;
    if (glp_simplex(problem, &relaxed) != 0) fail("the relaxation was not solved");
    return glp_get_status(problem) == GLP_NOFEAS ? GLP_ENOPFS : glp_intopt(problem, &options);
}

/* The next optimum's values in `found`. Answers 1, 0 where nothing is feasible, or -1 at the limit. */
static int solve(int64_t *found) {
    double begin = now();
    int failed = run_solver(), status = glp_mip_status(problem);
    seconds += now() - begin;
    calls++;
    if (failed == GLP_ENOPFS || failed == GLP_ENODFS || (failed == 0 && status == GLP_NOFEAS)) return 0;
    if (failed == GLP_ETMLIM || seconds >= limit) return -1;
    if (failed != 0 || status != GLP_OPT) fail("the solver gave up");
    uint64_t model = 0;
    for (int v = 1; v <= n; v++)
        if (glp_mip_col_val(problem, v) > 0.5) model |= 1ull << (v - 1);
    if (basilurn_judge(terms, BASILURN_TERM_ROOM, rows, BASILURN_ROW_ROOM, model, found) != 0) fail("the solver's assignment does not meet all rows");
    return 1;
}

static void keep(const int64_t *point) {
    if (points == BASILURN_MAX_POINTS * 16) fail("too many points");
    for (int k = 0; k < 4; k++) values[points][k] = point[k];
    points++;
}

static void aim(int k) {
    for (int v = 1; v <= n; v++) glp_set_obj_coef(problem, v, weight[k][v]);
}

/* Two costs. Answers 1 where all was found. */
static int list_two(void) {
    int row[2], state;
    int64_t point[4];
    for (int k = 0; k < 2; k++) row[k] = add_row(weight[k], 0, 0, GLP_UP, 0, (double)(most[k] - constant[k]));
    for (;;) {
        aim(0);
        glp_set_row_bnds(problem, row[0], GLP_UP, 0, (double)(most[0] - constant[0]));
        if ((state = solve(point)) != 1) return state == 0;
        aim(1);
        glp_set_row_bnds(problem, row[0], GLP_UP, 0, (double)(point[0] - constant[0]));
        if ((state = solve(point)) != 1) return 0;
        keep(point);
        glp_set_row_bnds(problem, row[1], GLP_UP, 0, (double)(point[1] - 1 - constant[1]));
    }
}

/* Demands a value below the point's for one cost. */
static void bar(const int64_t *point) {
    int y = add_binaries(objectives), any = glp_add_rows(problem, 1), places[5];
    double ones[5];
    for (int k = 0; k < objectives; k++) {
        add_row(weight[k], y + k, (double)(most[k] - point[k] + 1), GLP_UP, 0, (double)(most[k] - constant[k]));
        places[k + 1] = y + k, ones[k + 1] = 1;
    }
    glp_set_mat_row(problem, any, objectives, places, ones);
    glp_set_row_bnds(problem, any, GLP_LO, 1, 0);
}

static int list_more(void) {
    int64_t point[4];
    int state;
    for (int v = 1; v <= n; v++) glp_set_obj_coef(problem, v, weight[0][v] + weight[1][v] + weight[2][v] + weight[3][v]);
    while ((state = solve(point)) == 1) {
        keep(point);
        bar(point);
    }
    return state == 0;
}

int main(int argc, char **argv) {
    if (argc != 3) return puts(glp_version()) < 0;
    limit = atof(argv[1]);
    read_instance(argv[2]);
    glp_term_out(GLP_OFF);
    build();
    int done = objectives == 2 ? list_two() : list_more();
    printf("%s %.6f calls %d\n", done ? "done" : "limit", seconds, calls);
    for (int p = 0; p < points; p++) {
        printf("values");
        for (int k = 0; k < objectives; k++) printf(" %" PRId64, values[p][k]);
        printf("\n");
    }
    return 0;
}
