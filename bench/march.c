/* The march alone, in memory: taking a record through the library beside the same march in double-precision Fortran, at 2, 16 and 64 segments.
 * Both take the same storm of RECORDS records, in turn, TURNS times; the least time of each is reported, and their ratio. Each height of the
 * Fortran is looked for in the library's range, so that neither is timed on something else. Then the harbour panel's calls beside our own, at
 * 2 and 16 segments. */
#include <inttypes.h>
#include <math.h>
#include <stdio.h>
#include <stdlib.h>
#include <string.h>
#include <time.h>
#include "../include/surge.h"

enum { RECORDS = 4000, MOST = FENNHOP_MOST_POINTS };

void plain_start(void);
double plain_record(int64_t latitude, int64_t friction, int64_t initial, const int64_t *points, int64_t n, int64_t seconds,
                    int64_t tide, const int64_t *storm, int64_t first, double *v, double *kept);

static const int64_t latitude = 430, friction = 25, initial = 0, step = 600;
static int64_t points[MOST][2], tide[RECORDS], storm[RECORDS][MOST][3];
static int64_t lows[RECORDS], highs[RECORDS];

static double seconds_now(void)
{
    struct timespec t;
    clock_gettime(CLOCK_MONOTONIC, &t);
    return (double)t.tv_sec + 1e-9 * (double)t.tv_nsec;
}

/* A shelf from 600 ft to 30 ft, a storm that passes, and a tide. */
static void prepare(int n)
{
    for (int i = 0; i <= n; i++) {
        points[i][0] = 40 * (n - i);
        points[i][1] = 300 + 5700 * (n - i) / n;
    }
    for (int k = 0; k < RECORDS; k++) {
        double when = (k % 400) / 400.0;
        tide[k] = lround(400 * sin(k * 0.084));
        for (int i = 0; i <= n; i++) {
            double near = exp(-30 * (when - 0.5) * (when - 0.5)) * (0.7 + 0.3 * i / n);
            storm[k][i][0] = 20 + lround(600 * near);
            storm[k][i][1] = ((lround(3600 * when) + 900 + i) % 3600);
            storm[k][i][2] = lround(200 * near);
        }
    }
}

static void refuse(const char *what, uint64_t number, int64_t place)
{
    fprintf(stderr, "%s refused: %" PRIu64 " %" PRId64 "\n", what, number, place);
    exit(1);
}

/* The two calls that march a storm: our own program's and the panel's. */
static const struct pair {
    __typeof__(fennhop_open_traverse) *open;
    __typeof__(fennhop_take_record) *take;
} own = {fennhop_open_traverse, fennhop_take_record}, panel = {fennhop_panel_open_traverse, fennhop_panel_take_record};

static double by_library(struct pair by, int n, int level_c, int64_t *widest)
{
    int64_t state[FENNHOP_STATE], answer[FENNHOP_ANSWER], setup[FENNHOP_SETUP_STRIDE * FENNHOP_MOST_SEGMENTS];
    fennhop_row rows[FENNHOP_MOST_SEGMENTS] = {{0, 0, 0}};
    size_t points_count = FENNHOP_POINTS_STRIDE * (size_t)(n + 1), storm_count = FENNHOP_STORM_STRIDE * (size_t)(n + 1);
    double began = seconds_now();
    uint64_t number = by.open(latitude, friction, initial, points[0], points_count, state, FENNHOP_STATE, answer, FENNHOP_ANSWER);
    if (number)
        refuse("traverse", number, answer[0]);
    for (int k = 0; k < RECORDS; k++) {
        number = by.take(latitude, friction, initial, points[0], points_count, k ? step : 0, tide[k], storm[k][0], storm_count, state,
                         FENNHOP_STATE, rows, (size_t)n, level_c ? setup : NULL, level_c ? FENNHOP_SETUP_STRIDE * (size_t)n : 0, answer,
                         FENNHOP_ANSWER);
        if (number)
            refuse("record", number, answer[0]);
        if (answer[2] - answer[1] > *widest)
            *widest = answer[2] - answer[1];
        lows[k] = answer[1];
        highs[k] = answer[2];
    }
    return seconds_now() - began;
}

static double by_fortran(int n, int *outside)
{
    double v[MOST] = {0}, kept[MOST] = {0}, *plain = malloc(RECORDS * sizeof *plain);
    double began = seconds_now();
    for (int k = 0; k < RECORDS; k++)
        plain[k] = plain_record(latitude, friction, initial, points[0], n, k ? step : 0, tide[k], storm[k][0], k == 0, v, kept);
    double took = seconds_now() - began;
    for (int k = 0; k < RECORDS; k++)
        *outside += plain[k] < (double)lows[k] || plain[k] > (double)highs[k];
    free(plain);
    return took;
}

static void measure(int n, int turns)
{
    double library = 1e9, level_c = 1e9, fortran = 1e9;
    int64_t widest = 0;
    int outside = 0;
    prepare(n);
    for (int i = 0; i < turns; i++) {
        double b = by_library(own, n, 0, &widest), c = by_library(own, n, 1, &widest), f = by_fortran(n, &outside);
        library = b < library ? b : library;
        level_c = c < level_c ? c : level_c;
        fortran = f < fortran ? f : fortran;
    }
    printf("%8d %12.0f %12.0f %12.0f %10.2f %10.2f %8d %10" PRId64 "\n", n, 1e9 * library / RECORDS, 1e9 * level_c / RECORDS,
           1e9 * fortran / RECORDS, library / fortran, level_c / fortran, outside, widest);
}

/* The panel's calls and our own, in turn, at Level B. */
static void measure_panel(int n, int turns)
{
    double ours = 1e9, theirs = 1e9;
    int64_t widest = 0;
    prepare(n);
    for (int i = 0; i < turns; i++) {
        double a = by_library(own, n, 0, &widest), b = by_library(panel, n, 0, &widest);
        ours = a < ours ? a : ours;
        theirs = b < theirs ? b : theirs;
    }
    printf("%8d %12.0f %12.0f %10.2f\n", n, 1e9 * theirs / RECORDS, 1e9 * ours / RECORDS, theirs / ours);
}

/* march [TURNS [SEGMENTS]] */
int main(int count, char **words)
{
    int turns = count > 1 ? atoi(words[1]) : 20;
    plain_start();
    printf("%8s %12s %12s %12s %10s %10s %8s %10s\n", "segments", "B ns/record", "C ns/record", "Fortran ns", "B ratio", "C ratio",
           "outside", "widest");
    if (count > 2) {
        measure(atoi(words[2]), turns);
        return 0;
    }
    measure(2, turns);
    measure(16, turns);
    measure(64, turns);
    printf("%8s %12s %12s %10s\n", "segments", "panel ns", "own ns", "ratio");
    measure_panel(2, turns);
    measure_panel(16, turns);
    return 0;
}
